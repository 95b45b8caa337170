  mov ebx, 0x00000001
  mov ecx, 0x08048082
  mov edx, 0x00000003
  mov esi, 0x00000002
again:
  mov eax, 0x00000004
  int 0x80
  dec esi
  jnz again
  mov eax, 0x00000001
  mov ebx, 0x00000000
  int 0x80
  byte 68690a
