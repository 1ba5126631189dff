# tools.sh: sourced by tests/run and bench/run. Finds or installs what they need, installs the library below BUILD, and sets:
#   CROSS    the C compiler for x86-64        FOR    what its names begin with ('' on an x86-64 machine)
#   X86      what runs its programs ('' on an x86-64 machine, else the emulator)
#   BUILD    the folder for what is built     LIB    where the archives are
#   CRISP, BARE    the compiler's words for the library and for the one for bare metal, by pkg-config
#   CIPHER, REPORT    the archives of cipher_c and report_c

# need PACKAGE COMMAND..: installs Debian's package where the command does not succeed
need() {
    package=$1
    shift
    "$@" >/dev/null 2>&1 && return
    echo "installing $package"
    { apt-get -qq update && DEBIAN_FRONTEND=noninteractive apt-get -qq -y install "$package"; } >/dev/null 2>&1
    "$@" >/dev/null 2>&1 || { echo "cannot install $package"; exit 2; }
}

need gcc cc --version
need libc6-dev test -e /usr/include/stdio.h
need pkg-config pkg-config --version
if [ "$(uname -m)" = x86_64 ]; then
    CROSS=cc FOR='' X86=
else
    need gcc-x86-64-linux-gnu x86_64-linux-gnu-gcc --version
    need qemu-user qemu-x86_64 --version
    CROSS=x86_64-linux-gnu-gcc FOR=x86_64-linux-gnu- X86=qemu-x86_64
fi

BUILD=target/c
LIB=$BUILD/prefix/lib
mkdir -p "$BUILD"
./install "$BUILD/prefix" || exit 2
for crate in cipher_c report_c; do
    (cd crates/$crate && rt lib --cpu x86-64) >"$BUILD/$crate.log" 2>&1 || { grep -E 'error|not proved|^rt: ' "$BUILD/$crate.log" | tail -n 5; echo "$crate is not proved"; exit 2; }
done
CIPHER=crates/cipher_c/out/libcipher_c.a REPORT=crates/report_c/out/libreport_c.a
CRISP=$(PKG_CONFIG_LIBDIR=$LIB/pkgconfig pkg-config --cflags --libs crisp) || exit 2
BARE=$(PKG_CONFIG_LIBDIR=$LIB/pkgconfig pkg-config --cflags --libs crisp-bare) || exit 2
