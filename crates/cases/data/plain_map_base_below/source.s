 ^ 0,wsp
a # 4
wsp RN 12
