# Completion of passphrase(1) for fish. Which ids are kept nobody tells.

for command in passphrase dogwoodcatch-passphrase
    complete -c $command -f
    complete -c $command -l homedir -x -a '(__fish_complete_directories)' -d 'Ask the agent of this folder'
    complete -c $command -l timeout -x -d 'Wait so many seconds for each answer'
    complete -c $command -l new -d 'Have a new passphrase typed twice'
    complete -c $command -l no-ask -d 'Ask nobody'
    complete -c $command -l ttl -x -d 'Keep what is typed for so many seconds'
    complete -c $command -l prompt -x -d 'What stands before the field'
    complete -c $command -l null -d 'Print no line feed'
    complete -c $command -l cached -d 'Tell whether one is kept'
    complete -c $command -l forget -d 'Forget what is kept'
    complete -c $command -l forget-all -d 'Forget all that is kept'
    complete -c $command -l store -d 'Keep the line on standard input'
    complete -c $command -l help -d 'Print how the command is used'
    complete -c $command -l version -d 'Print the version'
end
# Its other word is a text.
complete -c passphrase-askpass -f -l forget -d 'Forget what was typed for the text'
