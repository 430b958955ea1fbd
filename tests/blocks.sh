# What tests/readme runs before each block of a page. The commands of blocks.toml use it too.
set -e
top=$PWD
# Words before those that `runs` is given, which lead to the other side's folder or database.
there=
running=()
rm -f said.*

# Runs this as in a terminal of its own, until the block has ended. It goes on once that says something.
runs() {
    local said=$top/said.${#running[@]}
    $there "$@" > "$said" 2>&1 &
    running+=($!)
    until [ -s "$said" ]; do
        kill -0 $!
        sleep 0.05
    done
}

# Fails if one of these has ended.
all_run() {
    local one
    for one in "${running[@]}"; do kill -0 "$one"; done
}
# What they said, if anything has failed.
trap '[ $? = 0 ] || [ ${#running[@]} = 0 ] || tail -qn 2 "$top"/said.* >&2' EXIT

until_so() { until "$@"; do sleep 0.05; done; }

# The server that the pages of packages have in another terminal.
peer() {
    printf 'two\nthree\n' > "$top/FILE"
    runs "$top/rangesync" serve --read-only --text "$top/FILE"
}

# Gives this machine, whose network and mounts are those of this block, the addresses and names of others.
be_others() {
    ip link set lo up
    ip addr add 192.0.2.1/24 dev lo
    echo '192.0.2.9 db2 HOST rangesync' > hosts
    mount --bind hosts /etc/hosts
}

# Lets `ssh` lead into the folder `there`, whatever machine is called.
ssh_to_there() {
    mkdir -p there stubs
    printf '#!/bin/sh\nshift\ncd "%s/there" && exec sh -c "$*"\n' "$top" > stubs/ssh
    chmod +x stubs/ssh
    PATH=$top/stubs:$PATH
}
