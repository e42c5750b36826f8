slx 1
phase word
grammar word+
rule a|i>e
form word iti iti ind
form word ca ca ind
end
