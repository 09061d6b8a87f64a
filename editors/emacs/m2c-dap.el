;;; m2c-dap.el --- m2 debug for dap-mode  -*- lexical-binding: t; -*-

;; Package-Requires: ((emacs "27.1") (dap-mode "0.7"))
;; Put these lines into your init file, behind those for m2c-mode:
;;   (require 'm2c-dap)
;; In the file of a program, M-x dap-breakpoint-toggle sets a breakpoint, and M-x m2c-debug begins. Then M-x dap-next, dap-step-in,
;; dap-step-out and dap-continue go forwards, M-x m2c-step-back and m2c-run-back go the other way.

;;; Code:

(require 'dap-mode)
(require 'm2c-mode)

(defun m2c-dap--configuration (given)
  "What dap-mode needs beside what is GIVEN: how m2 is called, and the program."
  (dap--put-if-absent given :dap-server-path (append m2c-program '("debug" "--dap") m2c-options))
  (dap--put-if-absent given :program (buffer-file-name))
  (dap--put-if-absent given :name (file-name-base (plist-get given :program)))
  given)

(dap-register-debug-provider "m2" #'m2c-dap--configuration)
(dap-register-debug-template "m2 :: the program of this file" (list :type "m2" :request "launch"))

(defun m2c-debug (&optional input)
  "Follows the program of this file, which reads the file INPUT; with a prefix argument it asks for one."
  (interactive (list (and current-prefix-arg (read-file-name "Input: " nil nil t))))
  (dap-debug (append (list :type "m2" :request "launch") (and input (list :input (expand-file-name input))))))

(defun m2c-dap--ask (request)
  "Sends a REQUEST about the thread that is stopped."
  (let ((session (dap--cur-active-session-or-die)))
    (dap--send-message (dap--make-request request (list :threadId (dap--debug-session-thread-id session))) #'ignore session)))

(defun m2c-step-back ()
  "Goes back by a statement."
  (interactive)
  (m2c-dap--ask "stepBack"))

(defun m2c-run-back ()
  "Goes back to the last breakpoint, or to the begin."
  (interactive)
  (m2c-dap--ask "reverseContinue"))

(provide 'm2c-dap)
;;; m2c-dap.el ends here
