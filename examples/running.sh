# shellcheck shell=bash
# Read by the scripts `run` of the examples beside it: starts servers on free ports of 127.0.0.1, with the
# configurations of the examples, checks what they answer, and ends them by their own ids.
#
# The program is ESI_EDGE if the environment names it, or ./esi_edge of this repository, or the one that is installed.

examples=$(cd "$(dirname "${BASH_SOURCE[0]}")" && pwd)
passed=0
failed=0
declare -A pid_of=() port_of=()
# Debian keeps servers where only root looks for programs.
PATH=$PATH:/usr/sbin:/sbin

# need PROGRAM ..: ends the example where one of these isn't installed
need() {
    local program
    for program; do
        if ! command -v "$program" >/dev/null; then
            echo "$program is not on the PATH: see README.md" >&2
            exit 2
        fi
    done
}

end_all() {
    local name
    for name in "${!pid_of[@]}"; do end "$name"; done
    rm -rf "$room"
}

# end NAME: ends what was started by this name
end() {
    kill "${pid_of[$1]}" 2>/dev/null
    wait "${pid_of[$1]}" 2>/dev/null
    unset "pid_of[$1]"
}

# start NAME COMMAND: runs it beside; what it prints is in the file NAME.log
start() {
    local name=$1
    shift
    "$@" >>"$room/$name.log" 2>&1 </dev/null &
    pid_of[$name]=$!
}

# listens PORT: whether somebody does, at this port of 127.0.0.1 or of all addresses
listens() { awk -v port="$(printf ':%04X' "$1")" '$4 == "0A" && $2 ~ port "$" { found = 1 } END { exit !found }' /proc/net/tcp; }

# answers PORT: waits until somebody listens there
answers() {
    if ! waits_for listens "$1"; then
        echo "nobody listens on port $1; what was started printed:" >&2
        tail -n 5 "$room"/*.log >&2
        exit 1
    fi
}

# free_ports PORT ..: chooses a free port for each of these, which stand in the configurations
free_ports() {
    local written port
    for written; do
        while :; do
            port=$((20000 + RANDOM % 12000))
            [[ " ${port_of[*]} " == *" $port "* ]] || listens "$port" || break
        done
        port_of[$written]=$port
    done
}

# configured FILE: the configuration with these ports, and with files of this example in place of the system's
configured() {
    local written changes=()
    for written in "${!port_of[@]}"; do
        changes+=(-e "s/\(127\.0\.0\.1:\| port \)$written\b/\1${port_of[$written]}/")
    done
    sed "${changes[@]}" -e "s,/srv/site,$examples/origins/pages," -e "s,/etc/ssl/[a-z]*/,$room/," "$1"
}

# start_nginx NAME FILE ..: nginx with these files, which stand in the folder conf.d of an installed one
start_nginx() {
    local name=$1 file mime=/etc/nginx/mime.types
    shift
    mkdir -p "$room/$name"
    for file; do configured "$file" >"$room/$name/$(basename "$file")"; done
    # What Debian's nginx.conf has around conf.d, for a user who may write to this folder alone.
    cat >"$room/$name.conf" <<END
daemon off;
pid $room/$name.pid;
worker_processes 1;
$([ "$(id -u)" -ne 0 ] || echo "user $(id -un) $(id -gn);")
events {}
http {
    include $mime;
    default_type application/octet-stream;
    access_log $room/$name.asked;
    client_body_temp_path $room/$name/body;
    proxy_temp_path $room/$name/proxy;
    fastcgi_temp_path $room/$name/fastcgi;
    uwsgi_temp_path $room/$name/uwsgi;
    scgi_temp_path $room/$name/scgi;
    include $room/$name/*.conf;
}
END
    start "$name" nginx -e "$room/$name.errors" -c "$room/$name.conf"
}

# start_edge NAME PORT OPTION ..: an edge for news.example, at the port that stands for this one
start_edge() {
    local name=$1 port=${port_of[$2]}
    shift 2
    start "$name" "$program" serve --listen "127.0.0.1:$port" --origin "news.example=127.0.0.1:${port_of[9000]}" \
        --log --head "$@"
    answers "$port"
}

# same WHAT WANTED CAME
same() {
    if [ "$2" == "$3" ]; then
        passed=$((passed + 1))
        echo "ok: $1"
    else
        failed=$((failed + 1))
        printf 'FAILED: %s\n  wanted %s\n  came   %s\n' "$1" "${2:0:300}" "${3:0:300}"
    fi
}

# same_bytes WHAT WANTED-FILE CAME-FILE
same_bytes() { same "$1" "$(sha256sum <"$2")" "$(sha256sum <"$3")"; }

# lines PATTERN FILE: how many lines have it
lines() { grep -cE -- "$1" "$2"; }

# has_lines COUNT PATTERN FILE ..: whether these have so many lines with it. An edge writes its line after the answer.
has_lines() {
    local count=$1 pattern=$2
    shift 2
    [ "$(cat "$@" | grep -cE -- "$pattern")" -ge "$count" ]
}

# connections PORT: how many connections clients have, or had until a minute ago, to this port of 127.0.0.1
connections() { awk -v at="$(printf '0100007F:%04X' "$1")" '$3 == at && $4 != "0A" || $2 == at && $4 == "06" { print $2 $3 }' /proc/net/tcp | sort -u | wc -l; }

# waits_for COMMAND: tries it for some seconds, until it succeeds
waits_for() {
    local turn
    for ((turn = 0; turn < 100; turn++)); do
        if "$@"; then return; fi
        sleep 0.1
    done
    return 1
}

program=${ESI_EDGE-}
if [ -z "$program" ]; then
    program=esi_edge
    [ ! -x "$examples/../esi_edge" ] || program=$examples/../esi_edge
fi
need "$program" curl
program=$(realpath "$(command -v "$program")") || exit 2
# Built first: it takes a while the first time, and says how far it is.
"$program" --version >/dev/null || exit 2
room=$(mktemp -d) || exit 2
trap end_all EXIT
trap 'exit 1' INT TERM
# HAProxy wants to be able to return to the folder that it is started in.
cd "$room" || exit 1
