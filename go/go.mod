module garvoeng

go 1.19
