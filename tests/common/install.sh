#!/usr/bin/env bash
# Installs those of these Debian packages that are missing. Scripts that run it at once take turns:
#   bash tests/common/install.sh PACKAGE..
# COMMAND/PACKAGE is a package that is needed if the command is missing: `sftp/openssh-client`.
# Prints nothing: the caller checks that it has what it needs.
set -u
exec >/dev/null 2>&1 9>/tmp/lucernetick-packages.lock
flock 9
missing=()
for word in "$@"; do
  package=${word##*/}
  if [[ $word == */* ]]; then
    command -v "${word%/*}" || missing+=("$package")
  else
    dpkg-query -W -f '${Status}' "$package" | grep -q ' installed' || missing+=("$package")
  fi
done
if [ ${#missing[@]} -gt 0 ]; then
  # Others may be installing too.
  timeout 300 apt-get -o DPkg::Lock::Timeout=300 update
  timeout 600 apt-get -o DPkg::Lock::Timeout=300 install -y --no-install-recommends "${missing[@]}"
fi
