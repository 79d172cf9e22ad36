#!/usr/bin/env bash
# Makes a Debian root of this machine's release, with these packages:
#   bash tests/common/debian_root.sh ROOT PACKAGE..
# Its files need not survive a crash, and have no documentation. Prints how many seconds it took.
set -eu
suite=$(. /etc/os-release && echo "$VERSION_CODENAME")
timeout 900 debootstrap --variant=minbase "$suite" "$1" >&2
printf '%s\n' force-unsafe-io 'path-exclude=/usr/share/doc/*' 'path-exclude=/usr/share/man/*' \
  >"$1/etc/dpkg/dpkg.cfg.d/quick"
cp /etc/resolv.conf "$1/etc"
timeout 900 chroot "$1" apt-get update >&2
timeout 900 chroot "$1" apt-get install -y --no-install-recommends "${@:2}" >&2
echo "$SECONDS"
