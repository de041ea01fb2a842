#!/usr/bin/env bash
# install.sh COMMAND PACKAGE..: installs Debian packages where COMMAND is missing. A service that a package brings is not started.
set -eu
PATH=$PATH:/usr/sbin:/sbin
command -v "$1" > /dev/null && exit
shift

as_root=$([ "$(id -u)" = 0 ] || echo sudo)
policy=/usr/sbin/policy-rc.d # Debian asks it before it starts a service; 101 forbids
if [ ! -e "$policy" ]; then
    trap '$as_root rm -f "$policy"' EXIT
    printf '#!/bin/sh\nexit 101\n' | $as_root tee "$policy" > /dev/null
    $as_root chmod +x "$policy"
fi
# the package lists may be missing or old
install() { $as_root env DEBIAN_FRONTEND=noninteractive apt-get install -y -q --no-install-recommends "$@"; }
install "$@" > /dev/null 2>&1 || { $as_root apt-get update -q > /dev/null; install "$@" > /dev/null; }
