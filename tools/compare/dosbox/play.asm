; Plays contents on the console of DOS, and keeps what its screen then shows.
;
; IN.BIN holds contents, one behind the other: how many bytes it has, a word, and the bytes. For each of them this
; program sets the text mode of 80 x 25, which clears the screen, writes the bytes to standard output, which is the
; console, and writes the 4000 bytes of the text screen to OUT.BIN: a byte and an attribute for each cell, row by row.
        org 100h

start:  mov dx, in_name
        mov ax, 3D00h           ; open for reading
        int 21h
        jc failed
        mov [in_file], ax
        mov dx, out_name
        xor cx, cx
        mov ah, 3Ch             ; create
        int 21h
        jc failed
        mov [out_file], ax

next:   mov bx, [in_file]
        mov cx, 2
        mov dx, size
        mov ah, 3Fh             ; read the size
        int 21h
        jc failed
        cmp ax, 2
        jne done
        mov bx, [in_file]
        mov cx, [size]
        mov dx, content
        mov ah, 3Fh             ; read the bytes
        int 21h
        jc failed
        mov ax, 0003h           ; text, 80 x 25
        int 10h
        mov bx, 1
        mov cx, [size]
        mov dx, content
        mov ah, 40h             ; write to standard output
        int 21h
        jc failed
        mov bx, [out_file]
        mov cx, 4000
        xor dx, dx
        push ds
        mov ax, 0B800h          ; the text screen
        mov ds, ax
        mov ah, 40h
        int 21h
        pop ds
        jc failed
        jmp next

done:   mov bx, [out_file]
        mov ah, 3Eh             ; close
        int 21h
        mov ax, 4C00h
        int 21h

failed: mov ax, 4C01h
        int 21h

in_name:  db "IN.BIN", 0
out_name: db "OUT.BIN", 0
in_file:  dw 0
out_file: dw 0
size:     dw 0
content:
