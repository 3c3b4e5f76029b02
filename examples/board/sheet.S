/* The rate sheet, in read-only memory as it stands in its file. */
  .section .rodata.sheet, "a"
  .global sheet, sheet_end
sheet:
  .incbin SHEET
sheet_end:
