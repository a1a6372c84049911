#!/bin/sh
# Builds the program without proving anything, in a minute and a half of one processor, and leaves it at
# crates/topk/out/topk.
# `rt try` lowers the sources and calls the compiler of its kit; over a copy of the kit's front, whose compiler keeps the
# module that it is given, the module is compiled here. Its checks of sums, places and memory stay in, so a fault stops
# the program. `rt run`, `rt ci` and `.ci/run` prove the sources and put the proved program in its place.
set -eu
cd "$(dirname "$0")/crates/topk"
rt=$(command -v rt) || { echo "unproved: there is no rt: put the toolchain's bin on the PATH" >&2; exit 1; }
kit=$(dirname "$(dirname "$(readlink -f "$rt")")")
room=$(mktemp -d)
trap 'rm -rf "$room"' EXIT
trap 'exit 1' INT TERM HUP

# The kit once more, by links, but for `rt` itself, which finds its kit by where it stands, the prover, which a trial asks for
# a hint alone, and the compiler.
mkdir -p "$room/kit/bin" "$room/kit/toolchain/bin"
for file in "$kit"/*; do
    case ${file##*/} in bin | toolchain) ;; *) ln -s "$file" "$room/kit/" ;; esac
done
for file in "$kit"/bin/*; do
    case ${file##*/} in rt | rtlib.py) cp "$file" "$room/kit/bin/" ;; rattle) ;; *) ln -s "$file" "$room/kit/bin/" ;; esac
done
cat > "$room/kit/bin/rattle" <<END
#!/bin/sh
case " \$* " in *" no function "*) exit 0 ;; esac
exec "$kit/bin/rattle" "\$@"
END
chmod +x "$room/kit/bin/rattle"
ln -s "$kit/toolchain/lib" "$room/kit/toolchain/lib"
for file in "$kit"/toolchain/bin/*; do
    [ "${file##*/}" = clang ] || ln -s "$file" "$room/kit/toolchain/bin/"
done
# The first module is a small trial of the compiler; the program's own is kept, and not compiled twice.
cat > "$room/kit/toolchain/bin/clang" <<END
#!/bin/sh
for word; do
    case \$word in *.bc) [ "\$(wc -c < "\$word")" -gt 100000 ] && cp "\$word" "$room/topk.bc" && exit 1 ;; esac
done
exec "$kit/toolchain/bin/clang" "\$@"
END
chmod +x "$room/kit/toolchain/bin/clang"

"$room/kit/bin/rt" try -- > "$room/said" 2>&1 || true
[ -s "$room/topk.bc" ] || { cat "$room/said" >&2; echo "unproved: the sources were not lowered" >&2; exit 1; }
"$kit/toolchain/bin/clang" --target=x86_64-unknown-linux-gnu --sysroot="$kit/toolchain" --no-default-config \
    -march=x86-64-v2 -ffunction-sections -fdata-sections -fPIE -O1 -c -x ir "$room/topk.bc" -o "$room/topk.o"
mkdir -p out
"$kit/bin/rattle-link" --target x86_64-unknown-linux-gnu --toolchain "$kit/toolchain" -o "$room/topk" \
    "$room/topk.o" "$kit/c/libos_c.a" "$kit/c/liblibc_c.a" > "$room/said" 2>&1 || { cat "$room/said" >&2; exit 1; }
mv "$room/topk" out/topk
echo "crates/topk/out/topk: built, NOT PROVED"
