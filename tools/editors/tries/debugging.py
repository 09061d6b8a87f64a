"""A session of `m2 debug --dap` by an editor's own client: a breakpoint, what variables hold, steps in both directions, the end."""
import os

from .painters import emacs
from .refusals import found_in

TOP = """MODULE Top;
FROM InOut IMPORT WriteCard, WriteLn;
VAR numbers: ARRAY [0..4] OF CARDINAL;
PROCEDURE Largest(list: ARRAY OF CARDINAL): CARDINAL;
VAR i, most: CARDINAL;
BEGIN
  most := list[0];
  FOR i := 1 TO HIGH(list) DO
    IF list[i] > most THEN
      most := i
    END
  END;
  RETURN most
END Largest;
BEGIN
  numbers[0] := 3; numbers[1] := 9; numbers[2] := 4; numbers[3] := 7; numbers[4] := 5;
  WriteCard(Largest(numbers), 0);
  WriteLn
END Top.
"""
# the run stops in front of RETURN, where `most` is 4 and not 9; a step back leads to FOR, which found its end, and a step on leads back
WANTED = {"stopped": [13, "Top.Largest", "4"], "back": 8, "again": 13, "calls": ["Top.Largest", "the body of Top"], "printed": True, "ended": True}
IN_EMACS = r"""
(require 'package)
(add-to-list 'package-directory-list "/usr/share/emacs/site-lisp/elpa")
(package-initialize)
(require 'm2c-dap)
(require 'json)
(setq lsp-session-file (expand-file-name "session") dap-breakpoints-file (expand-file-name "breakpoints") dap-auto-configure-features nil)
(defun waits (what) (with-timeout (20 nil) (while (not (funcall what)) (accept-process-output nil 0.05)) t))
(defvar found nil)
(defvar stops 0)
(defvar has-ended nil)
(defvar printed "")
(add-hook 'dap-stack-frame-changed-hook (lambda (_) (setq stops (1+ stops))))
(add-hook 'dap-terminated-hook (lambda (_) (setq has-ended t)))
(advice-add 'dap--print-to-output-buffer :before (lambda (_ words) (setq printed (concat printed words))))
(find-file "Top.mod")
(goto-char (point-min)) (forward-line 12)
(dap-breakpoint-add)
(m2c-debug)
(defun frame () (dap--debug-session-active-frame (dap--cur-session)))
(defun line () (gethash "line" (frame)))
(defun moved-by (move) (let ((before stops)) (funcall move) (waits (lambda () (> stops before)))))
(waits (lambda () (> stops 0)))
(let* ((most (gethash "result" (dap-request (dap--cur-session) "evaluate" :expression "most" :frameId (gethash "id" (frame)) :context "watch")))
       (rows (gethash "stackFrames" (dap-request (dap--cur-session) "stackTrace" :threadId (dap--debug-session-thread-id (dap--cur-session))))))
  (push (cons 'stopped (vector (line) (gethash "name" (frame)) most)) found)
  (push (cons 'calls (apply #'vector (mapcar (lambda (it) (gethash "name" it)) rows))) found))
(moved-by #'m2c-step-back)
(push (cons 'back (line)) found)
(moved-by (lambda () (dap-step-in (dap--cur-session))))
(push (cons 'again (line)) found)
(dap-continue (dap--cur-session) (dap--debug-session-thread-id (dap--cur-session)))
(push (cons 'ended (if (waits (lambda () has-ended)) t :json-false)) found)
(push (cons 'printed (if (string-match "4" printed) t :json-false)) found)
(with-temp-file "found.json" (insert (json-encode found)))
"""


def in_emacs(place):
    folder = f"{place}/debugging"
    os.makedirs(folder)
    with open(f"{folder}/Top.mod", "w", encoding="ascii") as file:
        file.write(TOP)
    emacs(IN_EMACS, [], folder)
    return found_in(folder), WANTED


READERS = [("emacs, dap-mode", ["emacs"], in_emacs)]
