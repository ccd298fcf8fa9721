#!/usr/bin/env bash
# Makes the test modules with Debian's cross tools (gcc-riscv64-linux-gnu, clang, lld, llvm) and strips them.
set -eu
cd "$(dirname "$0")"
code="-O1 -ffreestanding -fno-builtin -fno-stack-protector -fno-unwind-tables -fno-asynchronous-unwind-tables"
llvm="clang --target=riscv64-unknown-elf -march=rv64imac -mabi=lp64 -mcmodel=medany $code"
gnu="riscv64-linux-gnu-gcc -march=rv64imac -mabi=lp64 $code -nostdlib"
pie="ld.lld -static -pie --no-dynamic-linker -z norelro --hash-style=sysv --build-id=none"
trap 'rm -f *.o library.so' EXIT

for name in mover tables; do
  $llvm -fPIE -c $name.c -o $name.o
  $pie -o $name-lld.elf $name.o
done
$gnu -fPIE -static-pie -Wl,--build-id=none,-z,norelro,--no-dynamic-linker -o mover-gcc.elf mover.c
$gnu -fPIE -static-pie -Wl,--build-id=none,-z,norelro -o mover-interp.elf mover.c
$gnu -fno-pie -static -no-pie -Wl,--build-id=none -o mover-static.elf mover.c
$llvm -fPIC -c library.c -o library.o
ld.lld -shared --build-id=none -o library.so library.o
$llvm -c calls.c -o calls.o
ld.lld -no-pie --no-dynamic-linker -z norelro --hash-style=sysv --build-id=none -o calls-static.elf calls.o library.so

for module in *.elf; do llvm-strip --strip-all --strip-sections "$module"; chmod 644 "$module"; done
