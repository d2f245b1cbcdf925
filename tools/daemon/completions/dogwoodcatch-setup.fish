# Completion of dogwoodcatch-setup(1) for fish.

complete -c dogwoodcatch-setup -f
complete -c dogwoodcatch-setup -l homedir -x -a '(__fish_complete_directories)' -d 'Use this folder'
complete -c dogwoodcatch-setup -l force -d 'Set up a folder with secret keys too'
complete -c dogwoodcatch-setup -l undo -d 'Take the set-up back'
complete -c dogwoodcatch-setup -l check -d 'Print which agent answers, and what is to be done'
complete -c dogwoodcatch-setup -l clients -d 'Print who is connected to the agent'
complete -c dogwoodcatch-setup -l help -d 'Print the usage'
