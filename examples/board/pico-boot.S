/* The second stage of the RP2040's start: the ROM copies these 256 bytes into RAM and executes them, if their checksum is right, which
 * pico-uf2 adds. They let the processor read the flash by its command 03, which each flash has, and start the program. */
  .syntax unified
  .cpu cortex-m0plus
  .thumb
  .section .boot2, "ax"
  push {lr}
  ldr r3, =0x18000000
  movs r1, #0
  str r1, [r3, #0x08]
  movs r1, #4
  str r1, [r3, #0x14]
  ldr r1, =(31 << 16 | 3 << 8)
  str r1, [r3, #0x00]
  ldr r1, =(0x03 << 24 | 2 << 8 | 6 << 2)
  ldr r0, =0x180000F4
  str r1, [r0]
  movs r1, #0
  str r1, [r3, #0x04]
  movs r1, #1
  str r1, [r3, #0x08]
  pop {r0}
  cmp r0, #0
  beq 1f
  bx r0
1:
  ldr r0, =0x10000100
  ldr r1, =0xE000ED08
  str r0, [r1]
  ldmia r0!, {r1, r2}
  msr msp, r1
  bx r2
  .ltorg
  .balign 256
