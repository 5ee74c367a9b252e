"""What `./forth` does with its words: `commands` has the commands and their help, `program` finds the program that runs, `building` makes it
if it has to, and `course` makes the course's file of blocks and shows its hints. Anything else is a session, of the package `served`.
"""
