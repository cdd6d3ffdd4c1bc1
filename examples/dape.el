;;; dape.el --- Steps through examples/tour.text by llbm  -*- lexical-binding: t; -*-

;; Load this file, visit examples/tour.text, and do `M-x dape RET llbm RET'.

(require 'dape)

(let ((root (expand-file-name ".." (file-name-directory (or load-file-name buffer-file-name)))))
  (add-to-list
   'dape-configs
   `(llbm
     modes (text-mode fundamental-mode)
     command ,(expand-file-name "llbm-tools" root)
     command-args ("debug" "adapter")
     command-cwd ,root
     :type "llbm"
     :request "launch"
     :text ,(expand-file-name "examples/tour.text" root)
     :sources (:source ,(expand-file-name "examples/tour.tree" root))
     :workers 2
     :stopOnEntry t
     :stopAtEnd t)))

;;; dape.el ends here
