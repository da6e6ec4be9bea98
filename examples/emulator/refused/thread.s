# A variable of each thread.
	.section .tdata, "awT", @progbits
	.long	1
own:	.long	1
	.type	own, @object
	.globl	own
