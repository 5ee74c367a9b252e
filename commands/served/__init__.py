"""The host of a session over `forth83 serve`: the tools that people use are here, and the machine has the program.

docs/PROGRAM.md says what a session does. `start` has the command line, `blocks` the file of blocks, `own` images of programs, `wire` the
frames, `session` the loop, `services` what words of the machine ask the host for, `prompt` the terminal, `output` what is shown, `script`
lines of texts and pipes, `texts` text files, `faults`, `advising` and `reports` the messages, `manual` what HELP needs, `screens`
screens as text, `image` the images, `past` machines as they were (UNDO and WHY), `steps` DEBUG, `keeping` and `journal` screens that are not
written yet, `editor` the editor of screens, `dap` the debugger for other editors, `board` a machine on a board, `line` its serial line, and `bridge`
maps of devices.
"""
