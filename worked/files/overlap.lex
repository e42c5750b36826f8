slx 1
phase word
grammar word+
rule a|u>o
rule u|a>va
form word api api ind
form word u u ind
form word ca ca ind
end
