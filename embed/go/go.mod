module qtree

go 1.18
