"""The 54 commands in the order of their codes, each with its name and form, for the second implementations."""

RR, RI, RM, J = "RR", "RI", "RM", "J"
TABLE = (
    "halt RI,syscall RI,add RR,addi RI,sub RR,subi RI,mul RR,muli RI,div RR,divi RI,not RI,shl RR,shli RI,shr RR,"
    "shri RI,and RR,andi RI,or RR,ori RI,xor RR,xori RI,itod RR,dtoi RR,addd RR,subd RR,muld RR,divd RR,cmp RR,"
    "cmpi RI,cmpd RR,jmp J,jne J,jeq J,jle J,jl J,jge J,jg J,push RI,pop RI,lc RI,la RM,mov RR,load RM,load2 RM,"
    "store RM,store2 RM,loadr RR,loadr2 RR,storer RR,storer2 RR,prc J,call RR,calli J,ret J"
).split(",")
TABLE = [tuple(row.split()) for row in TABLE]
assert len(TABLE) == 54
