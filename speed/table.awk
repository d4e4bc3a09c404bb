# The times of speed/bench.c as a table. MB/s is 10^6 bytes of the file a second; the ratio is the screen's time to the peer's,
# so that below 1 the screen is the faster; growth is the screen's time to that of the same flow's smallest file, over the same
# of the bytes: 1 is linear.
BEGIN {
    print "| flow | part | bytes | peer MB/s | screen MB/s | ratio | growth |"
    print "|---|---|---:|---:|---:|---:|---:|"
}
{
    key = $1 " " $2
    if (!(key in bytes)) { bytes[key] = $3; took[key] = $5 }
    growth = $3 == bytes[key] ? "" : sprintf("%.2f", ($5 / took[key]) / ($3 / bytes[key]))
    printf "| %s | %s | %d | %.0f | %.0f | %.2f | %s |\n", $1, $2, $3, $3 / $4 * 1000, $3 / $5 * 1000, $5 / $4, growth
}
