#!/bin/sh
# Runs the program on a real folder, as several processes, and where the folder, its lock or its files are not as they should
# be. Prints a line for each case, and ends with 1 where one differs. It takes the program's path, or that of the launcher.
set -u
top=$(CDPATH='' cd -- "$(dirname -- "$0")/.." && pwd -P)
tool=${1:-$top/llvm-cas}
case $tool in /*) ;; *) tool=$PWD/$tool ;; esac
work=$(mktemp -d)
trap 'rm -rf "$work"' EXIT
cd "$work" || exit 1
bad=0

# The status that is wanted, the text that standard error is to have, and the command.
expect() {
    name=$1 status=$2 text=$3
    shift 3
    got=0
    "$@" >out 2>err || got=$?
    if [ "$got" = "$status" ] && [ "$(cat err)" = "$text" ]; then
        echo "as wanted: $name"
    else
        echo "DIFFERS: $name: status $got, '$(cat err)'"
        bad=1
    fi
}

blob() { printf '%s' "$2" | "$tool" --cas "$1" --make-blob; }
fault='llvm-cas: cannot use the folder'

expect 'a folder with missing parents is made' 0 '' blob deep/er/store hello
expect 'the image is read back' 0 '' "$tool" --cas deep/er/store --validate
[ "$(cat out)" = 'valid v1.1 1 0' ] || { echo "DIFFERS: $(cat out)"; bad=1; }
expect 'no name is an empty folder' 5 "$fault" blob '' hello

printf x >file
expect 'a folder that is a file' 5 "$fault" blob file hello
for name in lock tmp v1.1; do
    mkdir -p "$name.d/$name"
    expect "a directory named $name" 5 "$fault" blob "$name.d" hello
done
mkdir fifo
mkfifo fifo/v1.1
expect 'a pipe named v1.1 is refused without waiting' 5 "$fault" timeout 20 "$tool" --cas fifo --validate
mkdir latin
: >"$(printf 'latin/caf\351')"
expect 'a name that is not UTF-8' 5 "$fault" blob latin hello

blob stale hello >/dev/null
printf old >stale/tmp
expect 'a stale tmp is written over' 0 '' blob stale other
expect 'and both objects are there' 0 '' "$tool" --cas stale --validate
[ "$(cat out)" = 'valid v1.1 2 0' ] || { echo "DIFFERS: $(cat out)"; bad=1; }

# A process that holds the lock: it waits for its input with the folder not yet entered, so another tool holds it here.
blob held hello >/dev/null
flock held/lock sleep 5 &
sleep 1
expect 'a lock that another process holds' 11 'llvm-cas: the folder is in use' blob held hello
wait
expect 'and free again when that process ends' 0 '' blob held hello

# The largest blob, and a script whose one line does not fit beside it in a region of the default size.
head -c 16777215 /dev/zero | tr '\0' a >most
expect 'the largest blob' 0 '' sh -c '"$0" --cas largest --make-blob <most' "$tool"
[ "$(wc -c <largest/v1.1)" = 16781456 ] || { echo "DIFFERS: $(wc -c <largest/v1.1) bytes"; bad=1; }
{ printf 'session\nstore t:' && head -c 16777200 most; } >script
expect 'a script that fills the region' 0 '' sh -c '"$0" --cas largest --batch <script' "$tool"
[ "$(cat out)" = '0.1 full 2097683 2097151 4194304' ] || { echo "DIFFERS: $(cat out)"; bad=1; }

# A region of the least size: a store that does not fit is told its numbers, and the next one fits.
{ printf 'session\nstore t:' && head -c 28568 most && printf '\nstore t:ok'; } >script
expect 'a small region is full' 0 '' sh -c '"$0" --cas small --batch --size 4096 <script' "$tool"
[ "$(head -n 1 out)" = '0.1 full 525 3572 4096' ] || { echo "DIFFERS: $(cat out)"; bad=1; }
head -c 28560 most >least
expect 'what just fits is stored' 0 '' sh -c '"$0" --cas least.d --make-blob --size 4096 <least' "$tool"
[ "$(wc -c <least.d/v1.1)" = 32800 ] || { echo "DIFFERS: $(wc -c <least.d/v1.1) bytes"; bad=1; }
expect 'a region keeps its size' 7 'llvm-cas: full 4096 5 4096' sh -c 'printf x | "$0" --cas least.d --make-blob --size 5000' "$tool"

# That store went on in a new generation. What is used again is brought over, and what no command reads is removed.
expect 'a full store goes on' 0 '' "$tool" --cas least.d --validate
[ "$(cat out)" = "$(printf 'valid v1.2 0 0\nvalid v1.1 1 0')" ] || { echo "DIFFERS: $(cat out)"; bad=1; }
id=llvmcas://5e84e38fa5859903b5ea9bd2ab722b60342cfd82454c2f73756bdd15eb794887
expect 'what is used again is brought over' 0 '' "$tool" --cas least.d --cat-node-data --limit 0 $id
cmp -s out least || { echo 'DIFFERS: what was brought over'; bad=1; }
expect 'and kept in the generation below the next' 0 '' "$tool" --cas least.d --validate
[ "$(cat out)" = "$(printf 'valid v1.3 0 0\nvalid v1.2 1 0')" ] || { echo "DIFFERS: $(cat out)"; bad=1; }
expect 'what no command reads is removed' 0 '' "$tool" --cas least.d --prune
[ "$(cat out)" = 'pruned 1' ] && [ ! -e least.d/v1.1 ] && [ -e least.d/v1.2 ] || { echo "DIFFERS: $(cat out)"; bad=1; }
expect 'and nothing that is read' 0 '' "$tool" --cas least.d --cat-node-data $id
cmp -s out least || { echo 'DIFFERS: what was left'; bad=1; }

blob full hello >/dev/null
got=0
printf more | "$tool" --cas full --make-blob >/dev/full 2>err || got=$?
[ "$got" = 4 ] && [ "$(cat err)" = 'llvm-cas: cannot write the output' ] && echo 'as wanted: output into a full device' || { echo "DIFFERS: full device, status $got"; bad=1; }
got=0
printf most | "$tool" --cas full --make-blob >&- 2>err || got=$?
[ "$got" = 4 ] && [ "$(cat err)" = 'llvm-cas: cannot write the output' ] && echo 'as wanted: output into a closed descriptor' || { echo "DIFFERS: closed descriptor, status $got"; bad=1; }
expect 'what was stored is there all the same' 0 '' "$tool" --cas full --validate
[ "$(cat out)" = 'valid v1.1 3 0' ] || { echo "DIFFERS: $(cat out)"; bad=1; }

# The process is killed as it is about to rename: the old file stays, and the lock is free.
cat >kill.c <<'C'
#include <signal.h>
int rename(const char *from, const char *to) { (void)from; (void)to; raise(SIGKILL); return -1; }
int renameat(int a, const char *from, int b, const char *to) { (void)a; (void)from; (void)b; (void)to; raise(SIGKILL); return -1; }
C
if cc -shared -fPIC -o kill.so kill.c 2>/dev/null; then
    blob killed hello >/dev/null
    cp killed/v1.1 before
    got=0
    printf other | LD_PRELOAD=$work/kill.so "$tool" --cas killed --make-blob >out 2>err || got=$?
    [ "$got" = 137 ] && [ -e killed/tmp ] && cmp -s killed/v1.1 before && echo 'as wanted: killed between tmp and the rename' || { echo "DIFFERS: killed, status $got"; bad=1; }
    expect 'the lock is free after that' 0 '' blob killed other
    expect 'and the store goes on' 0 '' "$tool" --cas killed --validate
    [ "$(cat out)" = 'valid v1.1 2 0' ] || { echo "DIFFERS: $(cat out)"; bad=1; }
else
    echo 'not tried: no C compiler, so no process was killed'
fi
exit $bad
