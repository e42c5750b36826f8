slx 2
phase word
grammar word+
rule a|i>e
node 0::ind -
node - a=0
node - i=0
node - t=2
node - i=3,c=1
root word 4
end
