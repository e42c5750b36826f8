slx 1
phase word
grammar word+
rule a|i>e
rule i|u>yu
form word iti iti ind
form word uvAca vac perf.ac.3.sg
form word ca ca ind
end
