;;; autolock.el --- programs with atomic sections  -*- lexical-binding: t -*-

;; A mode for files of autolock, and Eglot's client for `autolock lsp`. `autolock-command' names the program with its first words.

;;; Code:

(defvar autolock-command '("autolock")
  "The program with its first words, as (\"/the/path/autolock\" \"--unproved\").")

(defconst autolock-keywords
  '("lock" "struct" "final" "ref" "int" "global" "protected_by" "pool" "init" "atomic" "let" "var" "if" "else" "while"
    "print" "return" "thread" "repeat" "null" "where" "call")
  "The words of the language.")

(define-derived-mode autolock-mode prog-mode "autolock"
  "A mode for programs with atomic sections."
  (modify-syntax-entry ?/ ". 12" autolock-mode-syntax-table)
  (modify-syntax-entry ?\n ">" autolock-mode-syntax-table)
  (modify-syntax-entry ?_ "w" autolock-mode-syntax-table)
  (setq-local comment-start "// ")
  (setq-local comment-end "")
  (setq-local indent-tabs-mode nil)
  (setq-local font-lock-defaults (list (list (cons (regexp-opt autolock-keywords 'words) 'font-lock-keyword-face)))))

(add-to-list 'auto-mode-alist '("\\.\\(al\\|autolock\\)\\'" . autolock-mode))

(with-eval-after-load 'eglot
  (add-to-list 'eglot-server-programs
               (cons 'autolock-mode (lambda (&optional _) (append autolock-command '("lsp"))))))

(provide 'autolock)
;;; autolock.el ends here
