( starts the course, which is in the open file of blocks )
1 LOAD
