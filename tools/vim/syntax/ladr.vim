" Colours for the language of ladr (docs/language.md). A flag, a parameter or a list that is unknown stands out as an error.
" Copy tools/vim/syntax and tools/vim/ftdetect to ~/.vim.

if exists("b:current_syntax")
    finish
endif
syntax case match
syntax iskeyword 36,48-57,65-90,95,97-122

syntax region ladrComment start=/%/ end=/$/ keepend
syntax region ladrComment start=/%BEGIN/ end=/%END/ keepend
syntax region ladrQuoted start=/"/ end=/"/ oneline

" Formulas
syntax keyword ladrQuantifier all exists contained
syntax keyword ladrTruth $T $F contained
syntax keyword ladrAttribute label answer bsub_hint_wt contained
syntax match ladrConnective /[-+*\/\\^<>=~?@&|!;`]\+/ contained
syntax match ladrAttributes /#/ contained
syntax match ladrVariable /\<[u-z]\k*\>(\@!/ contained
syntax match ladrNumeral /\<\%(0\|[1-9]\d*\)\>/ contained
syntax cluster ladrTerm contains=ladrComment,ladrQuoted,ladrQuantifier,ladrTruth,ladrAttribute,ladrConnective,ladrAttributes,ladrVariable,ladrNumeral

" Lists
syntax keyword ladrListName assumptions sos usable demodulators goals hints contained
syntax keyword ladrRulesName weights kbo_weights distinct contained
syntax region ladrList matchgroup=ladrCommand start=/\<formulas\>/ end=/\<end_of_list\>/ contains=@ladrTerm,ladrOpened
syntax region ladrRules matchgroup=ladrCommand start=/\<list\>/ end=/\<end_of_list\>/ contains=@ladrTerm,ladrOpenedRules
syntax region ladrOpened matchgroup=ladrPlain start=/\%(\<formulas\s*\)\@<=(/ end=/)/ contained contains=ladrListName,ladrUnknown
syntax region ladrOpenedRules matchgroup=ladrPlain start=/\%(\<list\s*\)\@<=(/ end=/)/ contained contains=ladrRulesName,ladrUnknown

" Commands
syntax match ladrUnknown /[^ \t),]\+/ contained
syntax region ladrFlags matchgroup=ladrCommand start=/\<\%(set\|clear\)\s*(/ end=/)/ contains=ladrUnknown,ladrFlag
syntax region ladrAssign matchgroup=ladrCommand start=/\<assign\s*(/ end=/)/ contains=ladrAssigned,ladrUnknown,ladrParameter
syntax region ladrAssigned matchgroup=ladrPlain start=/,/ end=/)\@=/ contained contains=ladrValue
syntax region ladrOperators matchgroup=ladrCommand start=/\<op\s*(/ end=/)/ contains=ladrType,ladrNumeral,ladrQuoted
syntax region ladrBlock matchgroup=ladrCommand start=/\<if\s*(/ end=/)/ contains=ladrProgram
syntax keyword ladrCommand function_order predicate_order end_if
syntax region ladrInterpretation matchgroup=ladrCommand start=/\<interpretation\>/ end=/)\s*\.\_s\@=\|)\s*\.$/ contains=ladrComment,ladrQuoted,ladrEntry,ladrNumeral
syntax keyword ladrEntry function relation contained
syntax keyword ladrProgram Prover9 Mace4 contained
syntax keyword ladrType infix infix_left infix_right prefix prefix_paren postfix postfix_paren ordinary contained
syntax keyword ladrValue lpo kbo pass contained
syntax match ladrValue /-\?\d\+/ contained

" Flags: those with an effect, then those that are read without one.
syntax keyword ladrFlag contained auto unit_deletion back_subsume back_demod lnh
syntax keyword ladrFlag contained binary_resolution hyper_resolution ur_resolution factor paramodulation prolog_style_variables
syntax keyword ladrFlag contained ignore_option_dependencies print_given print_kept print_gen print_proofs print_initial_clauses
syntax keyword ladrFlag contained print_models print_models_tabular echo_input quiet bell verbose trace negprop
syntax keyword ladrFlag contained auto2 auto_inference auto_setup auto_limits auto_denials auto_process process_initial_sos
syntax keyword ladrFlag contained neg_binary_resolution pos_hyper_resolution neg_hyper_resolution pos_ur_resolution neg_ur_resolution

" Parameters, likewise.
syntax keyword ladrParameter contained order max_weight sos_limit max_given max_kept max_seconds max_megs demod_step_limit
syntax keyword ladrParameter contained max_proofs max_models age_part weight_part false_part true_part pick_given_ratio
syntax keyword ladrParameter contained domain_size start_size end_size increment selection_order selection_measure
syntax keyword ladrParameter contained report report_stderr stats lrs_ticks min_sos_limit hints_part eq_defs

" Proofs
syntax region ladrProof matchgroup=ladrBanner start=/^=\{30} PROOF =\{33}$/ end=/^=\{30} end of proof =\{26}$/ contains=@ladrTerm,ladrStep
syntax keyword ladrStep contained assumption goal clausify deny copy back_rewrite back_unit_del resolve hyper ur factor para xx_res
syntax keyword ladrStep contained rewrite flip merge xx unit_del
syntax match ladrAnswer /^THEOREM PROVED$/
syntax match ladrFailed /^SEARCH FAILED$/
syntax match ladrFailed /^ladr: .*$/
syntax match ladrHead /^% \%(Input\|Proof\|Domain size\|Models=\|Exit\|Given=\|True=\|Made\|Check\|Prover9\|Mace4\).*$/

highlight default link ladrComment Comment
highlight default link ladrQuoted String
highlight default link ladrQuantifier Keyword
highlight default link ladrTruth Boolean
highlight default link ladrAttribute PreProc
highlight default link ladrAttributes PreProc
highlight default link ladrConnective Operator
highlight default link ladrVariable Identifier
highlight default link ladrNumeral Number
highlight default link ladrListName Type
highlight default link ladrRulesName Type
highlight default link ladrCommand Statement
highlight default link ladrFlag Constant
highlight default link ladrParameter Constant
highlight default link ladrValue Number
highlight default link ladrType Type
highlight default link ladrProgram Type
highlight default link ladrEntry Statement
highlight default link ladrUnknown Error
highlight default link ladrBanner Title
highlight default link ladrStep PreProc
highlight default link ladrAnswer Title
highlight default link ladrFailed Error
highlight default link ladrHead Special

let b:current_syntax = "ladr"
