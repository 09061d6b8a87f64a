MODULE M; FROM Console IMPORT Put; BEGIN Put("H"); Put("i"); Put(12C) END M.
