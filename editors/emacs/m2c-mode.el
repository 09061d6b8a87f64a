;;; m2c-mode.el --- Modula-2 for Emacs, as m2 reads it  -*- lexical-binding: t; -*-

;; Package-Requires: ((emacs "27.1"))
;; Put these lines into your init file:
;;   (add-to-list 'load-path "/usr/local/share/m2c/editors/emacs")
;;   (require 'm2c-mode)
;; M-x flymake-mode then shows the refusals of m2 check, whenever the file is saved, and M-x compile lists them.

;;; Code:

(require 'cl-lib)
(require 'compile)
(require 'flymake)
(require 'json)

(defgroup m2c nil "Modula-2 with m2." :group 'languages)

(defcustom m2c-program '("m2")
  "How m2 is called: its words, as (\"m2\") or (\"node\" \"/path/to/hosts/node/m2.mjs\")."
  :type '(repeat string))

(defcustom m2c-options nil
  "Options of m2 check, as (\"--lib\" \"/usr/local/share/m2c/lib\")."
  :type '(repeat string))

(defcustom m2c-indent-columns 2
  "The columns of a level."
  :type 'integer :safe #'integerp)

(defface m2c-number '((t :inherit font-lock-constant-face)) "Numbers, and characters by their codes.")

(defconst m2c--comment-columns 3 "How far the text of a comment stands behind its front.")
(defconst m2c--lines-ahead 100 "How far it is looked for what a comment stands before.")

;; tools/write_editors: begin
(defconst m2c--reserved '("AND" "ARRAY" "BEGIN" "BY" "CASE" "CONST" "DEFINITION" "DIV" "DO" "ELSE" "ELSIF" "END" "EXIT" "EXPORT" "FOR" "FROM" "IF" "IMPLEMENTATION" "IMPORT" "IN" "LOOP" "MOD" "MODULE" "NOT" "OF" "OR" "POINTER" "PROCEDURE" "QUALIFIED" "RECORD" "REPEAT" "RETURN" "SET" "THEN" "TO" "TYPE" "UNTIL" "VAR" "WHILE" "WITH"))
(defconst m2c--types '("BITSET" "BOOLEAN" "CARDINAL" "CHAR" "INTEGER"))
(defconst m2c--constants '("FALSE" "TRUE"))
(defconst m2c--procedures '("ABS" "CAP" "CHR" "DEC" "EXCL" "HALT" "HIGH" "INC" "INCL" "MAX" "MIN" "ODD" "ORD" "VAL" "Console" "Put"))
(defconst m2c--number "[0-9][0-9A-F]*H\\|[0-7]+C\\|[0-7]+B\\|[0-9]+")
(defconst m2c--run "[0-9][0-9A-Za-z]*")
(defconst m2c--opens '("CASE" "FOR" "IF" "LOOP" "RECORD" "REPEAT" "WHILE" "WITH"))
(defconst m2c--closes '("BEGIN" "ELSE" "ELSIF" "END" "UNTIL" "|"))
(defconst m2c--sections '("CONST" "TYPE" "VAR"))
(defconst m2c--begins '("BEGIN" "CONST" "DO" "ELSE" "LOOP" "RECORD" "REPEAT" "THEN" "TYPE" "VAR" ";" "|"))
;; tools/write_editors: end

(defvar m2c-mode-syntax-table
  (let ((table (make-syntax-table)))
    (modify-syntax-entry ?\( "()1n" table)
    (modify-syntax-entry ?\) ")(4n" table)
    (modify-syntax-entry ?* ". 23n" table)
    (modify-syntax-entry ?\" "\"" table)
    (modify-syntax-entry ?' "\"" table)
    (dolist (sign '(?\\ ?_ ?+ ?- ?/ ?& ?= ?# ?< ?> ?| ?~ ?$ ?%))
      (modify-syntax-entry sign "." table))
    table)
  "Comments nest, and strings have either quote and no escapes.")

(defconst m2c-font-lock-keywords
  `((,(regexp-opt m2c--reserved 'symbols) . font-lock-keyword-face)
    (,(regexp-opt m2c--types 'symbols) . font-lock-type-face)
    (,(regexp-opt m2c--constants 'symbols) . font-lock-constant-face)
    (,(regexp-opt m2c--procedures 'symbols) . font-lock-builtin-face)
    (,(concat "\\_<\\(?:" m2c--number "\\)\\_>") . 'm2c-number)
    (,(concat "\\_<" m2c--run "\\_>") . font-lock-warning-face))
  "What is shown beside comments and strings.")

;; Indentation. A line stands where the words before it say. What is known before lines is kept, newest first, and dropped behind a
;; change, so that a whole file is indented in one pass.

(cl-defstruct (m2c--state (:copier nil))
  (stack nil)           ; what is open: each with its column, and whether declarations or labels came
  (fresh t)             ; whether a statement or a declaration begins
  (base 0)              ; the column of the line where the last one began
  (brackets nil)        ; the column behind each open bracket, or nil
  (depth 0)             ; how many comments are open
  (column 0)            ; the column of the outermost
  (is-definition nil)
  (last ""))

(defvar-local m2c--known nil "Pairs of the beginning of a line and what is known before it, newest first.")

(defconst m2c--token
  "(\\*\\|\"[^\"\n]*\"\\|'[^'\n]*'\\|[A-Za-z][A-Za-z0-9]*\\|[0-9][0-9A-Za-z]*\\|:=\\|\\.\\.\\|[^ \t\r\n]")

(defun m2c--copy (state)
  "A copy of STATE that shares nothing that changes."
  (let ((copy (copy-sequence state)))
    (setf (m2c--state-stack copy) (copy-tree (m2c--state-stack state)))
    copy))

(defun m2c--top (state)
  (or (car (m2c--state-stack state)) (list "" 0 nil)))

(defun m2c--is-block (kind)
  (member kind '("MODULE" "PROCEDURE")))

(defun m2c--inside (state)
  "The column of a statement or a declaration that begins."
  (pcase-let ((`(,kind ,column ,has-begun) (m2c--top state)))
    (cond ((string= kind "") 0)
          ((m2c--is-block kind) (+ column (if has-begun m2c-indent-columns 0)))
          (t (+ column (* m2c-indent-columns (if (and has-begun (string= kind "CASE")) 2 1)))))))

(defun m2c--column (state word)
  "The column of a line that begins with WORD."
  (pcase-let ((`(,kind ,column ,_) (m2c--top state)))
    (cond ((member word m2c--closes) column)
          ((not (m2c--state-fresh state)) (or (car (m2c--state-brackets state)) (+ (m2c--state-base state) m2c-indent-columns)))
          ((not (m2c--is-block kind)) (m2c--inside state))
          ((or (member word m2c--sections) (member word '("FROM" "IMPORT"))) column)
          ((string= word "PROCEDURE") (+ column (if (string= kind "PROCEDURE") m2c-indent-columns 0)))
          (t (m2c--inside state)))))

(defun m2c--open (state kind column)
  (setf (m2c--state-brackets state) nil)
  (push (list kind column nil) (m2c--state-stack state)))

(defun m2c--mark (state has-begun)
  "Notes whether declarations of the innermost block, or statements behind a label, HAS-BEGUN."
  (when (m2c--state-stack state)
    (setf (nth 2 (car (m2c--state-stack state))) has-begun)))

(defun m2c--step-bracket (state token)
  "Opens or closes a bracket; point is behind TOKEN."
  (if (member token '("(" "[" "{"))
      (push (save-excursion (skip-chars-forward " \t") (unless (eolp) (current-column))) (m2c--state-brackets state))
    (pop (m2c--state-brackets state))))

(defun m2c--step-place (state token)
  "Notes that TOKEN begins declarations, statements, or what stands behind a label."
  (let ((is-case (string= (car (m2c--top state)) "CASE")))
    (cond ((and (member token m2c--sections) (null (m2c--state-brackets state))) (m2c--mark state t))
          ((string= token "BEGIN") (setf (m2c--state-brackets state) nil) (m2c--mark state t))
          ((and is-case (member token '("ELSE" "|"))) (m2c--mark state nil))
          ((and is-case (string= token ":") (null (m2c--state-brackets state)))
           (m2c--mark state t)
           (setf (m2c--state-fresh state) t))
          ((and is-case (string= token "OF")) (setf (m2c--state-fresh state) t)))))

(defun m2c--step (state token indent)
  "What is known behind TOKEN, in a line that begins at the column INDENT."
  (let ((was-fresh (m2c--state-fresh state)))
    (when was-fresh (setf (m2c--state-base state) indent))
    (setf (m2c--state-fresh state) (and (member token m2c--begins) t))
    (cond ((member token m2c--opens) (m2c--open state token (m2c--state-base state)))
          ((string= token "MODULE")
           (setf (m2c--state-is-definition state) (string= (m2c--state-last state) "DEFINITION"))
           (m2c--open state token indent))
          ((and was-fresh (string= token "PROCEDURE"))
           (m2c--mark state nil)
           (unless (m2c--state-is-definition state) (m2c--open state token indent)))
          ((member token '("END" "UNTIL"))
           (setf (m2c--state-brackets state) nil)
           (pop (m2c--state-stack state)))
          ((member token '("(" ")" "[" "]" "{" "}")) (m2c--step-bracket state token))
          (t (m2c--step-place state token)))
    (when (m2c--state-brackets state) (setf (m2c--state-fresh state) nil))
    (setf (m2c--state-last state) token)))

(defun m2c--pass-comment (state limit)
  "Passes over an open comment, up to LIMIT."
  (while (and (> (m2c--state-depth state) 0) (re-search-forward "(\\*\\|\\*)" limit 'move))
    (cl-incf (m2c--state-depth state) (if (string= (match-string-no-properties 0) "(*") 1 -1))))

(defun m2c--next (state limit)
  "The next token before LIMIT that stands in no comment, or nil. Point goes behind it."
  (let ((case-fold-search nil) found)
    (m2c--pass-comment state limit)
    (while (and (not found) (re-search-forward m2c--token limit 'move))
      (setq found (match-string-no-properties 0))
      (when (string= found "(*")
        (setf (m2c--state-depth state) 1
              (m2c--state-column state) (save-excursion (goto-char (match-beginning 0)) (current-column)))
        (setq found nil)
        (m2c--pass-comment state limit)))
    found))

(defun m2c--read-line (state)
  "What is known behind the line at point."
  (let ((state (m2c--copy state)) (indent (current-indentation)) (limit (line-end-position)) token)
    (while (setq token (m2c--next state limit))
      (m2c--step state token indent))
    state))

(defun m2c--before-line ()
  "What is known before the line at point, which is its begin."
  (let ((place (point)))
    (unless m2c--known
      (push (cons (point-min) (make-m2c--state)) m2c--known))
    (when (< (caar m2c--known) place)
      (goto-char (caar m2c--known))
      (while (< (point) place)
        (let ((state (m2c--read-line (cdar m2c--known))))
          (forward-line 1)
          (push (cons (point) state) m2c--known))))
    (cdr (assq place m2c--known))))

(defun m2c--forget (begin _end)
  "Drops what was known of lines behind BEGIN, where a change is made."
  (while (and m2c--known (> (caar m2c--known) begin))
    (pop m2c--known)))

(defun m2c--indentation ()
  "The column of the line at point, which is its begin."
  (let ((state (save-excursion (m2c--before-line))) (case-fold-search nil))
    (if (> (m2c--state-depth state) 0)
        (max (current-indentation) (+ (m2c--state-column state) m2c--comment-columns))
      (skip-chars-forward " \t")
      (let* ((is-comment (looking-at "(\\*"))
             (word (or (unless (eolp) (m2c--next (make-m2c--state) (line-end-position m2c--lines-ahead))) "")))
        (if (and is-comment (not (string= word "BEGIN")) (member word m2c--closes))
            (m2c--inside state)
          (m2c--column state word))))))

(defun m2c-indent-line ()
  "Indents the line at point. What stands in a comment is only moved out of the way of its front."
  (interactive)
  (let ((column (save-excursion (beginning-of-line) (m2c--indentation))))
    (if (<= (current-column) (current-indentation))
        (indent-line-to column)
      (save-excursion (indent-line-to column)))))

;; Refusals.

(defun m2c--is-program (file)
  "Whether FILE holds a program module."
  (with-temp-buffer
    (insert-file-contents file)
    (let ((case-fold-search nil))
      (and (re-search-forward "^[ \t]*\\(DEFINITION\\|IMPLEMENTATION\\|MODULE\\)\\_>" nil t)
           (string= (match-string 1) "MODULE")))))

(defun m2c--programs ()
  "The programs that are checked: the file of the buffer if it is one, else those in its folder."
  (let ((file (buffer-file-name)))
    (if (or (not (file-exists-p file)) (m2c--is-program file))
        (list file)
      (or (cl-remove-if-not #'m2c--is-program (directory-files (file-name-directory file) t "\\.mod\\'")) (list file)))))

(defun m2c--command (&rest more)
  "The words of the command that checks the programs, with MORE options."
  (append m2c-program '("check") more m2c-options (mapcar #'file-relative-name (m2c--programs))))

(defun m2c--place (line column)
  "The place of a LINE and a COLUMN in bytes."
  (save-excursion
    (save-restriction
      (widen)
      (goto-char (point-min))
      (forward-line (1- line))
      (or (byte-to-position (+ (position-bytes (point)) (1- column))) (line-end-position)))))

(defun m2c--diagnostic (source refusal)
  "The diagnostic of REFUSAL in the buffer SOURCE, or nil if it is of another file."
  (let-alist refusal
    (with-current-buffer source
      (when (and .rule (string= (expand-file-name .file) (expand-file-name (buffer-file-name))))
        (flymake-make-diagnostic
         source (m2c--place .line .column) (m2c--place .line (max .end (1+ .column))) :error
         (format "%s (refusal %d)%s" .words .rule (if (string= .detail "") "" (concat "\n" .detail))))))))

(defun m2c--refusals (text)
  "The refusals that m2 printed as TEXT, an object a line, without those that come next, behind a mend."
  (seq-remove (lambda (it) (eq (alist-get 'then it) t))
              (delq nil (mapcar (lambda (line) (ignore-errors (json-read-from-string line))) (split-string text "\n" t)))))

(defvar-local m2c--process nil "The check that runs.")

(defun m2c-flymake (report &rest _)
  "Checks the programs as they are saved, and calls REPORT with their refusals in this buffer."
  (when (process-live-p m2c--process)
    (kill-process m2c--process))
  (let ((source (current-buffer)) (errors (generate-new-buffer " *m2-check-errors*")))
    (setq m2c--process
          (make-process
           :name "m2-check" :noquery t :connection-type 'pipe
           :buffer (generate-new-buffer " *m2-check*") :stderr errors
           :command (m2c--command "--format" "json")
           :sentinel
           (lambda (process _)
             (unless (process-live-p process)
               (when (and (buffer-live-p source) (eq process (buffer-local-value 'm2c--process source)))
                 (let ((text (with-current-buffer (process-buffer process) (buffer-string))))
                   (funcall report (delq nil (mapcar (lambda (it) (m2c--diagnostic source it)) (m2c--refusals text))))))
               (kill-buffer (process-buffer process))
               (kill-buffer errors)))))))

(add-to-list 'compilation-error-regexp-alist-alist
             '(m2 "^\\(?:m2: \\)?\\([^:\n]+\\):\\([0-9]+\\):\\([0-9]+\\): refusal [0-9]+$" 1 2 3))
(add-to-list 'compilation-error-regexp-alist 'm2)

;; M-x eglot starts the language server.
(defun m2c--server (&rest _)
  "The words that start the language server."
  (append m2c-program (list "lsp") m2c-options))

(with-eval-after-load 'eglot
  (defvar eglot-server-programs)
  (add-to-list 'eglot-server-programs '(m2c-mode . m2c--server)))

;;;###autoload
(define-derived-mode m2c-mode prog-mode "Modula-2"
  "A mode for Modula-2, as m2 reads it."
  (setq-local comment-start "(* " comment-end " *)" comment-start-skip "(\\*+ *" comment-end-skip " *\\*+)")
  (setq-local font-lock-defaults '(m2c-font-lock-keywords))
  (setq-local indent-line-function #'m2c-indent-line indent-tabs-mode nil)
  (setq-local compilation-error-screen-columns nil)
  (setq-local flymake-no-changes-timeout nil)
  (setq-local electric-indent-chars (append "DEFLNPRT|" electric-indent-chars))
  (add-hook 'before-change-functions #'m2c--forget nil t)
  (add-hook 'flymake-diagnostic-functions #'m2c-flymake nil t)
  (when (buffer-file-name)
    (setq-local compile-command (mapconcat #'shell-quote-argument (m2c--command) " "))))

;;;###autoload
(add-to-list 'auto-mode-alist '("\\.\\(?:mod\\|def\\)\\'" . m2c-mode))

(provide 'm2c-mode)
;;; m2c-mode.el ends here
