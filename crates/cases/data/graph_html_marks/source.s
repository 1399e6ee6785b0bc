; <b>No row</b>: the line has no word.
start    MOV    R0,#1	; </code></script><script>alert("1 & 2")</script>
         MOV    R1,#1  ; a 'quoted' <byte>
	MOV	R2,#2 ; past ASCII é
         SUBS   PC,R14,#4 ; &lt; &amp;
