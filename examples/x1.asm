  mov eax, 0x00000004
  mov ebx, 0x00000001
  mov ecx, 0x08048076
  mov edx, 0x00000003
  int 0x80
  mov eax, 0x00000001
  mov ebx, 0x00000000
  int 0x80
  byte 68690a
