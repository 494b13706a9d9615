#!/bin/sh
# Makes target/native/libhusk.a, the proved functions compiled for an AArch64 machine, so that there the
# host's programs run by themselves, are timed and are watched by valgrind. It takes the LLVM module that
# `rt lib` in crates/husk hands to the kit's clang and changes its target and how C passes large structs
# there: an answer by the register for results, an argument by the address of the caller's copy, and an IV
# in two registers also where x86-64 has none left. Nothing of the gate uses it, and the archive to ship is
# rt's own. It was written for the older kit: today's has no clang for AArch64, so it can't be tried with it.
set -eu
machine=aarch64
[ "$(uname -m)" = $machine ] || { echo "only for an AArch64 machine: elsewhere use rt's archive" >&2; exit 2; }
kit=$(dirname "$(dirname "$(rt doc)")")
out=$PWD/target/native
clang=$kit/on/$machine/toolchain/bin/clang
shadow=$out/kit
rm -rf "$out"
mkdir -p "$shadow/on/$machine/toolchain/bin"

# The kit, with a clang that keeps what it is given.
for f in "$kit"/*; do [ "$(basename "$f")" = on ] || ln -s "$f" "$shadow/"; done
for f in "$kit/on/$machine"/*; do [ "$(basename "$f")" = toolchain ] || ln -s "$f" "$shadow/on/$machine/"; done
for f in "$kit/on/$machine/toolchain"/*; do [ "$(basename "$f")" = bin ] || ln -s "$f" "$shadow/on/$machine/toolchain/"; done
for f in "$kit/on/$machine/toolchain/bin"/*; do [ "$(basename "$f")" = clang ] || ln -s "$f" "$shadow/on/$machine/toolchain/bin/"; done
cat > "$shadow/on/$machine/toolchain/bin/clang" <<END
#!/bin/sh
for a in "\$@"; do case \$a in *.bc) cp "\$a" "$out/module.bc" ;; esac; done
exec "$clang" "\$@"
END
chmod +x "$shadow/on/$machine/toolchain/bin/clang"
(cd crates/husk && RATTLE_HOME=$shadow rt lib) > "$out/log"

"$clang" --target=x86_64-unknown-linux-gnu -S -emit-llvm -O0 -Xclang -disable-llvm-passes -x ir "$out/module.bc" -o "$out/module.ll"
sed -E \
  -e 's/^target triple = .*/target triple = "aarch64-unknown-linux-gnu"/' \
  -e '/^target datalayout = /d' -e 's/ "(target-cpu|target-features|tune-cpu)"="[^"]*"//g' \
  -e '/^define noundef ptr @husk_/ { s/^define noundef ptr/define void/; s/\(ptr noundef %a0/(ptr noundef sret([8 x i8]) align 8 %a0/ }' \
  -e 's/^  ret ptr %a0$/  ret void/' \
  -e '/^define .* byval\(\[12 x i8\]\)/ { N; s/ptr noundef byval\(\[12 x i8\]\) align 1 %a([0-9]+)(.*)/i64 %first, i32 %last\2\n  %a\1 = alloca [12 x i8], align 1\n  store i64 %first, ptr %a\1, align 1\n  %rest = getelementptr i8, ptr %a\1, i64 8\n  store i32 %last, ptr %rest, align 1/ }' \
  -e '/^define / s/ byval\(\[[0-9]+ x i8\]\)//g' \
  "$out/module.ll" > "$out/native.ll"
"$clang" --target=aarch64-unknown-linux-gnu -O3 -ffunction-sections -fPIC -c -x ir "$out/native.ll" -o "$out/native.o"
"$kit/on/$machine/toolchain/bin/llvm-ar" rcs "$out/libhusk.a" "$out/native.o"
rm -r "$shadow"
