slx 1
phase word
grammar word+
rule a|a>A
rule a|A>A
form word asti as pr.ac.3.sg
form word Asti Asti ind
form word na na ind
end
