" Specifications of the induction prover spike.
if exists("b:current_syntax")
  finish
endif

syntax iskeyword @,48-57,_,192-255
syntax match spikeOperator "=>\|=\||"
syntax match spikeNumber "\<\d\+\>"
syntax match spikeName "\K\k*"
syntax match spikeCall "\K\k*\ze\s*("
syntax match spikeType "\(\<sort\s\+\)\@<=\K\k*"
syntax match spikeFunction "\(\<fun\s\+\)\@<=\K\k*"
syntax match spikeGoal "\(\<goal\s\+\)\@<=\K\k*"
syntax keyword spikeDeclaration spike sort fun equal status order rule goal
syntax keyword spikeTest if unless
syntax keyword spikeWildcard _
syntax keyword spikeConstant true false
syntax keyword spikeBuiltIn Bool
syntax match spikeComment "#.*$" contains=@Spell

highlight default link spikeComment Comment
highlight default link spikeDeclaration Keyword
highlight default link spikeTest Conditional
highlight default link spikeWildcard Keyword
highlight default link spikeNumber Number
highlight default link spikeConstant Boolean
highlight default link spikeBuiltIn Type
highlight default link spikeType Type
highlight default link spikeFunction Function
highlight default link spikeGoal Label
highlight default link spikeCall Function
highlight default link spikeName Identifier
highlight default link spikeOperator Operator

setlocal commentstring=#\ %s
let b:current_syntax = "spike"
