# Clean roots of Debian: tools/try-packages and tools/try-fresh read this file.
#
# BASE names a clean root that was made before, which is copied; else debootstrap makes one, of
# SUITE (bookworm) from MIRROR.

# need TOOL..: ends the script where it cannot make a root.
need() {
    local tool
    [ "$(id -u)" -eq 0 ] || { echo "$0: it makes a root, and so has to run as root" >&2; exit 2; }
    for tool in "$@"; do
        command -v "$tool" > /dev/null && continue
        echo "$0 lacks: $tool (Debian: $tool)" >&2
        exit 2
    done
}

# make_root FOLDER: puts a clean root into an empty folder.
make_root() {
    if [ -n "${BASE:-}" ]; then
        cp -a "$BASE/." "$1"
    else
        need debootstrap
        # shellcheck disable=SC2086
        unshare --mount debootstrap --variant=minbase "${SUITE:-bookworm}" "$1" ${MIRROR:-} \
            > "$1.log" 2>&1 || {
            tail -n 5 "$1.log" >&2
            echo "$0: debootstrap failed" >&2
            return 1
        }
    fi
    cp /etc/resolv.conf "$1/etc/resolv.conf"
    # no service starts in the root
    printf '#!/bin/sh\nexit 101\n' > "$1/usr/sbin/policy-rc.d"
    chmod 755 "$1/usr/sbin/policy-rc.d"
}

# inside FOLDER COMMAND ..: runs a command in the root. Its mounts and processes end with it. BIND
# names a folder that is seen there too, read-only.
inside() {
    # shellcheck disable=SC2016
    unshare --mount --pid --fork --kill-child bash -c '
        root=$1 bind=$2
        shift 2
        mount -t proc proc "$root/proc" || exit 125
        if [ -n "$bind" ]; then
            mkdir -p "$root$bind"
            mount --bind "$bind" "$root$bind" || exit 125
            mount -o remount,bind,ro "$root$bind" || exit 125
        fi
        exec chroot "$root" /usr/bin/env -i HOME=/root LC_ALL=C.UTF-8 \
            PATH=/usr/local/sbin:/usr/local/bin:/usr/sbin:/usr/bin:/sbin:/bin \
            DEBIAN_FRONTEND=noninteractive "$@"
    ' inside "$1" "${BIND:-}" "${@:2}"
}

# remove_root FOLDER: removes a root in which nothing is mounted.
remove_root() { rm -rf --one-file-system "$1" "$1.log"; }
