#!/bin/sh
# native.sh NAME OUT: the proved program NAME for this machine, an Arm one, to be timed. The LLVM module that rattle hands to its
# compiler is kept, its layout, triple and processor are replaced by this machine's, and it is compiled and linked with this
# machine's C library. The machine code isn't the shipped one; the module is. `rt run` in crates/NAME comes first.
set -eu
root=$(cd "$(dirname "$0")/.." && pwd -P) name=$1 out=$2
rt=$(readlink -f "$(command -v rt)")
kit=${RATTLE_HOME:-$(dirname "$(dirname "$rt")")} own=$kit
clang=$own/toolchain/bin/clang
mkdir -p "$out.kept/bin"
kept=$(cd "$out.kept" && pwd -P)

# A toolchain whose clang keeps the module.
ln -sfn "$own/toolchain/lib" "$kept/lib"
for tool in ld.lld llvm-ar; do ln -sf "$own/toolchain/bin/$tool" "$kept/bin/$tool"; done
cat >"$kept/bin/clang" <<END
#!/bin/sh
cp module.bc '$kept/module.bc'
exec '$clang' "\$@"
END
chmod +x "$kept/bin/clang"
set -- --extern "std=$own/rlib/std.rlib"
for library in $(sed -n "s/#.*//; s/^$name: *//p" "$root/crates.txt"); do
    if [ -d "$root/crates/$library" ]; then from=$root/target; else from=$own; fi
    set -- "$@" --extern "$library=$from/rlib/$library.rlib"
done
"$own/bin/rattle" build --crate-name "$name" "$root/crates/$name/src/main.rt" "$@" -L "dependency=$root/target/rlib" -L "dependency=$own/rlib" \
    --antt-project "$kit/logic/antt-project.json" --logic-built "$own/logic-built" --toolchain "$kept" -o "$kept/x86.o" >"$kept/said" 2>&1 ||
    { cat "$kept/said" >&2; exit 1; }

# The module as text, for this machine. Processor and frame pointer are what rustc gives its own functions on Arm.
"$clang" --target=x86_64-unknown-linux-gnu -x ir "$kept/module.bc" -S -emit-llvm -Xclang -disable-llvm-passes -o "$kept/x86.ll"
layout=$(echo 'int x;' | "$clang" --target=aarch64-unknown-linux-gnu -x c - -S -emit-llvm -o - | sed -n 's/^target datalayout = //p')
sed -e "s/^target datalayout = .*/target datalayout = $layout/" -e 's/^target triple = .*/target triple = "aarch64-unknown-linux-gnu"/' \
    -e 's/ "target-cpu"="x86-64"/ "frame-pointer"="non-leaf" "target-cpu"="generic" "target-features"="+v8a,+outline-atomics"/' "$kept/x86.ll" >"$kept/native.ll"
if grep -i x86 "$kept/native.ll"; then
    echo "native.sh: something of x86 is left in the module" >&2
    exit 1
fi
"$clang" --target=aarch64-unknown-linux-gnu --no-default-config -Werror -ffunction-sections -fdata-sections -mllvm -trap-unreachable \
    -mllvm -no-trap-after-noreturn -fPIE -O3 -x ir -c "$kept/native.ll" -o "$kept/native.o"
# The kit's C code for `os` is for x86-64. This is what the timed programs call of it.
cat >"$kept/os.c" <<'END'
#include <errno.h>
int rattle_errno(void) { return errno; }
END
cc -O2 -pie -o "$out" "$kept/native.o" "$kept/os.c"
