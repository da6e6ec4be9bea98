# A symbol that no library has.
	.data
	.long	0, nobody
