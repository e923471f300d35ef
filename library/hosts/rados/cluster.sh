#!/usr/bin/env bash
# A Ceph cluster for tests, on 127.0.0.1, without systemd: a monitor, a manager, three object stores, a pool "store" that keeps all three times.
#   cluster.sh start DIR               DIR is not there yet; all files are made in it. Then DIR/ceph.conf is for clients
#   cluster.sh status DIR
#   cluster.sh stop-osd DIR N [KILL]   ends an object store, 0 to 2: well, or as a crash does
#   cluster.sh start-osd DIR N
#   cluster.sh stop DIR                ends all of them by their process ids; DIR stays
#   cluster.sh needed                  whether Ceph is installed; it says so where it is not
# By the environment: STORE=bluestore|memstore (the latter is empty after a crash), PORT=42000 (it and the 100 above it are used).
set -eu
verb=${1:?start, status, stop-osd, start-osd, stop or needed}

for command in ceph ceph-authtool ceph-mgr ceph-mon ceph-osd monmaptool rados; do
    command -v "$command" > /dev/null || { echo "not tested: there is no $command; Ceph's packages ceph-mon, ceph-mgr and ceph-osd are needed" >&2; exit 1; }
done
[ "$verb" != needed ] || exit 0

mkdir -p "$(dirname "${2:?a folder}")"
dir=$(cd "$(dirname "$2")" && pwd)/$(basename "$2") # whole, since a process is known by it
conf=$dir/ceph.conf
port=${PORT:-42000}
osds="0 1 2"

# A command to the cluster, which would wait for ever for a monitor that is not there.
ask() { timeout 120 ceph -c "$conf" "$@"; }

# Runs a daemon in the background and keeps its process id. It does not fork, and no signal of the terminal reaches it.
launch() { # NAME COMMAND..
    local name=$1
    shift
    setsid "$@" > "$dir/$name.out" 2>&1 < /dev/null &
    echo $! > "$dir/$name.pid"
}

# Whether the process of a name lives and is the one that was started here: its id may have been given away since.
is_ours() { # NAME
    [ -s "$dir/$1.pid" ] && tr '\0' ' ' 2> /dev/null < "/proc/$(cat "$dir/$1.pid")/cmdline" | grep -qF -- "-c $conf "
}

# Ends a daemon and waits until it is gone; after 15 seconds it is killed.
finish() { # NAME [SIGNAL]
    if is_ours "$1"; then
        kill -"${2:-TERM}" "$(cat "$dir/$1.pid")"
        for _ in $(seq 150); do
            is_ours "$1" || break
            sleep 0.1
        done
        if is_ours "$1"; then kill -KILL "$(cat "$dir/$1.pid")"; fi
    fi
    rm -f "$dir/$1.pid"
}

launch_osd() { launch "osd.$1" ceph-osd -f -i "$1" -c "$conf"; }

# All that would lie under /etc, /run and /var lies in the folder. Loopback has to be named, and is not a machine to spread copies over.
write_conf() {
    cat > "$conf" <<END
[global]
fsid = $fsid
mon host = [v2:127.0.0.1:$port]
public addr = 127.0.0.1
cluster addr = 127.0.0.1
ms bind msgr1 = false
ms bind port min = $((port + 1))
ms bind port max = $((port + 100))
keyring = $dir/keyring
run dir = $dir
admin socket = $dir/\$name.asok
log file = $dir/\$name.log
mon cluster log file = $dir/cluster.log
crash dir = $dir
[client]
log file =
admin socket =
# else a client with one call under way hears late that an object store has moved
objecter tick interval = 0.5
objecter timeout = 1
[mon]
mon data = $dir/mon
mon data avail warn = 1
mon data avail crit = 0
# else a shut out client, or a dead object store, is told a second later
paxos propose interval = 0.1
osd crush chooseleaf type = 0
osd pool default size = 3
osd pool default min size = 2
osd pool default pg autoscale mode = off
auth allow insecure global id reclaim = false
[mgr]
mgr data = $dir/mgr
mgr initial modules =
[osd]
osd data = $dir/osd\$id
osd objectstore = ${STORE:-bluestore}
bluestore block size = 4294967296
osd memory target = 939524096
memstore device bytes = 1073741824
END
}

# One keyring for all. client.store has what a host needs: to shut out a former owner, and x for locks. client.stranger may read no object.
write_keys() {
    key() { ceph-authtool "$dir/keyring" --gen-key "$@" > /dev/null; }
    ceph-authtool --create-keyring "$dir/keyring" > /dev/null
    key -n mon. --cap mon 'allow *'
    key -n client.admin --cap mon 'allow *' --cap osd 'allow *' --cap mgr 'allow *'
    key -n client.store --cap mon 'allow r, allow command "osd blocklist"' --cap osd 'allow rwx pool=store'
    key -n client.stranger --cap mon 'allow r'
    key -n mgr.x --cap mon 'allow profile mgr' --cap osd 'allow *'
    for n in $osds; do key -n "osd.$n" --cap mon 'allow profile osd' --cap osd 'allow *' --cap mgr 'allow profile osd'; done
}

start_monitor() {
    monmaptool --create --fsid "$fsid" --addv a "[v2:127.0.0.1:$port]" "$dir/monmap" > /dev/null
    ceph-mon --mkfs -i a -c "$conf" --monmap "$dir/monmap"
    launch mon ceph-mon -f -i a -c "$conf"
}

# The object stores are made side by side, and all is told to the monitor in one command, since each takes a start of Python.
make_osds() {
    local commands="" making="" uuid pid
    for n in $osds; do
        mkdir "$dir/osd$n"
        uuid=$(cat /proc/sys/kernel/random/uuid)
        commands+="osd new $uuid $n"$'\n'
        ceph-osd --mkfs -i "$n" -c "$conf" --osd-uuid "$uuid" >> "$dir/mkfs.out" 2>&1 &
        making+=" $!"
    done
    commands+="osd pool create store 8 8 replicated"$'\n'
    commands+="osd pool application enable store store"$'\n'
    ask <<< "$commands" >> "$dir/commands.out" 2>&1
    for pid in $making; do wait "$pid"; done
}

# Until all object stores are up and the pool keeps what is written.
await_pool() {
    for _ in $(seq 300); do
        [ "$(ask osd stat -f json | grep -o '"num_up_osds":[0-9]*')" != '"num_up_osds":3' ] || break
        sleep 0.3
    done
    if ! timeout 180 rados -c "$conf" -p store put started "$conf" || ! timeout 60 rados -c "$conf" -p store rm started; then
        echo "the cluster's pool keeps nothing that is written" >&2
        return 1
    fi
}

start() {
    mkdir "$dir" # fails over an old cluster
    trap '[ $? = 0 ] || "$0" stop "$dir"' EXIT
    mkdir "$dir/mon" "$dir/mgr"
    fsid=$(cat /proc/sys/kernel/random/uuid)
    write_conf
    write_keys
    start_monitor
    make_osds
    launch mgr ceph-mgr -f -i x -c "$conf"
    for n in $osds; do launch_osd "$n"; done
    await_pool
}

status() {
    for name in mon mgr osd.0 osd.1 osd.2; do
        if is_ours "$name"; then echo "$name $(tr -s ' \t' ' ' < "/proc/$(cat "$dir/$name.pid")/status" | grep VmRSS)"; else echo "$name is not running"; fi
    done
    if is_ours mon; then ask osd tree; fi
    if is_ours mgr; then ask health detail; fi
}

case $verb in
start) start ;;
status) status ;;
stop-osd) finish "osd.${3:?which}" "${4:-TERM}" ;;
start-osd) is_ours "osd.${3:?which}" || launch_osd "$3" ;;
stop)
    for n in $osds; do finish "osd.$n"; done
    finish mgr
    finish mon
    ;;
*)
    echo "no such verb: $verb" >&2
    exit 2
    ;;
esac
