#!/bin/sh
# Builds examples/show.c against libcapi.a, runs it on four small cards, on one of them also for
# the first frame alone, and compares what it writes with examples/show.expected. CC and CXX name
# the compilers.
set -eu
cd "$(dirname "$0")/.."
tools/staticlib.sh capi >/dev/null
out=target/examples
mkdir -p "$out"
flags='-Wall -Wextra -Wpedantic -Werror -Iinclude'
${CC:-cc} -std=c99 -O2 $flags examples/show.c target/staticlib/libcapi.a -o "$out/show"
echo '#include "wbmp.h"' | ${CXX:-c++} -std=c++11 $flags -fsyntax-only -x c++ -

# Twelve by seven dots: "HI" in two frames, the second inverted.
head='\000\000\014\007'
one='\377\360\266\360\266\360\206\360\266\360\266\360\377\360'
two='\000\000\111\000\111\000\171\000\111\000\111\000\000\000'
cd "$out"
printf "$head$one$two" >whole.wbmp
# The first frame with the pair Title = HI in its header, which sniffing does not take: what the program `titlecard` writes.
printf '\000\340\122TitleHI\014\007'"$one" >title.wbmp
cmp title.wbmp ../../crates/titlecard/stdout
# The first frame without its last byte, and a type that there is not.
printf "$head$one" | head -c 17 >cut.wbmp
printf '\005' >type.wbmp
{
    for card in whole title cut type; do
        ./show "$card.wbmp" || echo "ended with $?"
    done
    ./show -1 whole.wbmp
} >show.out
diff ../../examples/show.expected show.out
echo "show: as expected"
