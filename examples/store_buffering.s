# Store buffering: each of two threads writes one word and then prints the other one.
# extern print 1
.data
x:
	.long 0
y:
	.long 0
.text
main:
	subl $8, %esp
	movl $f, %eax
	movl %eax, (%esp)
	movl $0, 4(%esp)
	call thread_create
	movl $1, x
	movl y, %eax
	movl %eax, (%esp)
	call print
	ret
f:
	subl $4, %esp
	movl $1, y
	movl x, %eax
	movl %eax, (%esp)
	call print
.L0:
	jmp .L0
