#!/usr/bin/env bash
# live.sh [--short] [--checked] [PART..]: lacp on interfaces of this machine's kernel, two of it and Open vSwitch, against tests/live; --short is a selection
# for a gate, --checked runs it with the compiler's sanitizers. Builds it, installs what is missing where that is allowed (what cannot be had, is left out),
# and runs tests/live/live.py in namespaces of its own. Needs no root, if the machine lets its users have namespaces.
set -eu
cd "$(dirname "$0")/.."
PATH=$PATH:/usr/sbin:/sbin
program=target/lacp/lacp is_short=
for word; do
    case $word in
    --checked) program=target/lacp/lacp-checked ;;
    --short) is_short=yes ;;
    esac
done
if [ "$program" = target/lacp/lacp ]; then tools/lacp.sh; else tools/lacp.sh --checked; fi
tools/install.sh ip iproute2
mkdir -p target/live
gcc -std=c11 -O2 -Wall -Wextra -Wpedantic -Werror tests/live/flood.c -o target/live/flood
if [ ! "$is_short" ]; then
    tools/install.sh ovs-vswitchd openvswitch-switch || echo 'live: Open vSwitch cannot be installed'
    tools/install.sh ethtool ethtool || echo 'live: ethtool cannot be installed'
fi

# Users who are not root are root in a user namespace.
namespaces=(--net --mount)
[ "$(id -u)" = 0 ] || namespaces+=(--user --map-root-user)
# shellcheck disable=SC2016 # $@ is the inner shell's
exec unshare "${namespaces[@]}" bash -c 'mount -t tmpfs tmpfs /run && mkdir /run/netns && exec "$@"' live \
    /usr/bin/python3 -B tests/live/live.py "$program" target/live/flood "$@"
