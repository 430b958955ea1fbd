# What the two pictures of bytes share: their axes.
set logscale xy
set xlabel "items that differ"
set ylabel "bytes both ways"
set xrange [1:10000]
set yrange [500:4000000]
set format x "%.0f"
set ytics ("1 kB" 1e3, "10 kB" 1e4, "100 kB" 1e5, "1 MB" 1e6)
set key outside right
