// Document 01, 'What `replay` prints': the worked example.
servers 2 quota 1
1: regular 1 {1}
1: deliver 1
1: request "A"
1: deliver 1
1: request "B" refused 3
