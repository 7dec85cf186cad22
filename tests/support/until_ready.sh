# calls of the script that units wait by, in a room whose driver starts late, on a network of its own
ip link set lo up || exit 77
until_ready=$prefix/lib/mulgefa/until-ready
socket=$PWD/dummy-ups-su700
trap 'kill $(jobs -p)' EXIT
late_driver() {
    sleep 1
    exec "$prefix/lib/mulgefa/dummy-ups" su700.dev "$socket"
}
end() {
    kill $1
    wait $1
}

late_driver &
driver=$!
"$until_ready" $driver driver "$socket"
echo "the socket of a late driver: $(test -S "$socket" && echo there)"
end $driver
rm "$socket"

"$prefix/sbin/upsd" --conf . -s . -q &
server=$!
late_driver &
"$until_ready" $server server
echo "the status of a late driver: $("$prefix/bin/upsc" su700 ups.status)"
end $server

echo 'LISTEN 127.0.0.1 24931' > upsd.conf
"$prefix/sbin/upsd" --conf . -s . -q &
"$until_ready" $! server
echo "a server elsewhere: $?"

printf 'MINSUPPLIES 0
SHUTDOWNCMD true
' > upsmon.conf
"$prefix/sbin/upsmon" --conf . -q &
monitor=$!
"$until_ready" $monitor monitor
echo "the shells that wait: $(wc -w < /proc/$monitor/task/$monitor/children)"
end $monitor
echo faulty > upsmon.conf
"$prefix/sbin/upsmon" --conf . -q 2> /dev/null &
"$until_ready" $! monitor
kill -0 $! 2> /dev/null || echo "a monitor that failed: gone"

true &
ended=$!
wait $ended
"$until_ready" $ended driver none
echo "a driver that ended: $?"
"$until_ready" $ended server
echo "a server that ended: $?"
