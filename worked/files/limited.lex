slx 3
phase p
phase q
phase r
grammar (p | q | r)+
rule a|i>e p q
rule A|i>e p r
node 0::ind -
node - a=0,A=0
node - i=0
node - c=1
node - t=2
node - i=4
root p 3
root q 5
root r 5
end
