# To be sourced: what it takes to build and run an x86-64 program beside the static library, on x86-64 and on Arm. What is
# missing is installed from Debian's packages (as root). Afterwards: $rustc, $cc, $qemu, $machine, and $1/lib for the linker.
#
#     . tools/x86.sh; x86_tools DIR

rustc=/usr/bin/rustc qemu=/usr/bin/qemu-x86_64 machine=$(uname -m)
if [ "$machine" = aarch64 ]; then cc=x86_64-linux-gnu-gcc; else cc=gcc; fi

x86_installed() { dpkg-query -W -f '${db:Status-Status}' "$1" 2>/dev/null | grep -q '^installed'; }

x86_get() {
    log=$1 want=''
    shift
    for p in "$@"; do x86_installed "${p%%=*}" || want="$want $p"; done
    [ -z "$want" ] && return 0
    # shellcheck disable=SC2086
    { apt-get update -qq && DEBIAN_FRONTEND=noninteractive apt-get install -y -qq --no-install-recommends $want; } >"$log" 2>&1 ||
        { tail -5 "$log" >&2; exit 2; }
}

x86_tools() {
    mkdir -p "$1/lib"
    if [ "$machine" = aarch64 ]; then
        dpkg --print-foreign-architectures | grep -qx amd64 || dpkg --add-architecture amd64
        x86_get "$1/apt.log" rustc-web gcc-x86-64-linux-gnu libc6-dev-amd64-cross qemu-user gcc libc6-dev
        x86_get "$1/apt.log" "libstd-rust-web-dev:amd64=$(dpkg-query -W -f '${Version}' rustc-web)" # of the compiler's very version
        # Debian's cross package has a libm.a that names the files of the native one: a copy that names its own
        sed 's,/usr/lib/x86_64-linux-gnu/,/usr/x86_64-linux-gnu/lib/,g' /usr/x86_64-linux-gnu/lib/libm.a >"$1/lib/libm.a"
    else
        x86_get "$1/apt.log" rustc-web gcc libc6-dev qemu-user
    fi
}
