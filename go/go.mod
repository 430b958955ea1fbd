module rangesync

go 1.19
