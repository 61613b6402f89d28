module ccnode.invalid/ccnode

go 1.19
