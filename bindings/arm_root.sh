#!/usr/bin/env bash
# bindings/arm_root.sh make FOLDER             puts Debian for ARM into a folder, by debootstrap, with what README.md needs: 400 MB from
#                                              Debian's server
# bindings/arm_root.sh run FOLDER COMMAND..    runs a command there by qemu-aarch64-static, in namespaces of its own, so that nothing else
#                                              of the machine knows programs for ARM; in / it is a command of this machine, or a program for
#                                              ARM, and may start both. It needs Linux 6.7 or later
set -eu
packages=python3,python3-pip,python3-venv,python3-ruamel.yaml,python3-yaml,make,git

# What debootstrap leaves for programs of the folder to do is not needed: each package is unpacked, and no more.
make_root() {
    local package place
    debootstrap --foreign --arch=arm64 --variant=minbase --include="$packages" bookworm "$1" http://deb.debian.org/debian
    for package in "$1"/var/cache/apt/archives/*.deb; do
        dpkg-deb --fsys-tarfile "$package" | tar -C "$1" --keep-directory-symlink -xf -
        rm "$package"
    done
    # (it leaves links to folders of this machine where it may mount none)
    for place in proc dev; do
        if [ -L "$1/$place" ]; then rm "$1/$place" && mkdir "$1/$place"; fi
    done
}

# Programs for ARM begin with these bytes, of which those behind zeros of the mask may be others.
magic='\x7fELF\x02\x01\x01\x00\x00\x00\x00\x00\x00\x00\x00\x00\x02\x00\xb7\x00'
mask='\xff\xff\xff\xff\xff\xff\xff\x00\xff\xff\xff\xff\xff\xff\xff\xff\xfe\xff\xff\xff'

# run_in FOLDER COMMAND..: in the namespaces.
run_in() {
    local folder=$1
    shift
    mount -t binfmt_misc none /proc/sys/fs/binfmt_misc
    printf '%s' ":qemu-aarch64:M::$magic:$mask:$(command -v qemu-aarch64-static):F" >/proc/sys/fs/binfmt_misc/register
    if [ "$folder" = / ]; then exec "$@"; fi
    mount --rbind /dev "$folder/dev"
    mount -t proc proc "$folder/proc"
    exec chroot "$folder" "$@"
}

case ${1-} in
make) make_root "${2:?a folder}" ;;
run) exec unshare --user --map-root-user --mount --pid --fork --kill-child "$0" within "${2:?a folder}" "${@:3}" ;;
within) run_in "${@:2}" ;;
*)
    sed -n '2,6s/^# //p' "$0" >&2
    exit 64
    ;;
esac
