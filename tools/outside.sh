#!/usr/bin/env bash
# outside.sh wire|peers: a test of the library against programs of others. Installs them where they are missing, builds
# tests/outside/switch.c with the library and those of before, and runs tests/outside/wire.py or peers.py over it.
set -eu
cd "$(dirname "$0")/.."
tools/install.sh tshark tshark
case $1 in
wire) tools/install.sh /usr/bin/scapy python3-scapy ;;
peers) tools/install.sh ovs-vswitchd openvswitch-switch ;;
esac
# the proved archive itself, on any machine
TARGET=x86_64-linux-gnu
export TARGET
. tools/target.sh
tools/yesterday.sh
compile tests/outside/switch.c target/outside/switch -Itests/c "target/yesterday/$TARGET/yesterday.o" "target/yesterday/$TARGET/lately.o"
exec /usr/bin/python3 -B "tests/outside/$1.py" "${run[@]}" target/outside/switch
