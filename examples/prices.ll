; ModuleID = 'prices.c'
source_filename = "prices.c"
target datalayout = "e-m:e-p270:32:32-p271:32:32-p272:64:64-i64:64-i128:128-f80:128-n8:16:32:64-S128"
target triple = "x86_64-pc-linux-gnu"

@.str = private unnamed_addr constant [4 x i8] c"%d\0A\00", align 1, !dbg !0

; Function Attrs: nounwind uwtable
define dso_local i32 @main() #0 !dbg !14 {
entry:
  %retval = alloca i32, align 4
  %book = alloca i32, align 4
  %lamp = alloca i32, align 4
  %chair = alloca i32, align 4
  %sum = alloca i32, align 4
  store i32 0, ptr %retval, align 4
  call void @llvm.lifetime.start.p0(i64 4, ptr %book) #3, !dbg !23
    #dbg_declare(ptr %book, !19, !DIExpression(), !24)
  store i32 20, ptr %book, align 4, !dbg !24, !tbaa !25
  call void @llvm.lifetime.start.p0(i64 4, ptr %lamp) #3, !dbg !29
    #dbg_declare(ptr %lamp, !20, !DIExpression(), !30)
  store i32 140, ptr %lamp, align 4, !dbg !30, !tbaa !25
  call void @llvm.lifetime.start.p0(i64 4, ptr %chair) #3, !dbg !31
    #dbg_declare(ptr %chair, !21, !DIExpression(), !32)
  call void @llvm.lifetime.start.p0(i64 4, ptr %sum) #3, !dbg !33
    #dbg_declare(ptr %sum, !22, !DIExpression(), !34)
  %0 = load i32, ptr %book, align 4, !dbg !35, !tbaa !25
  %call = call i32 @reduced(i32 noundef %0), !dbg !36
  store i32 %call, ptr %sum, align 4, !dbg !34, !tbaa !25
  %1 = load i32, ptr %lamp, align 4, !dbg !37, !tbaa !25
  %call1 = call i32 @reduced(i32 noundef %1), !dbg !38
  %2 = load i32, ptr %sum, align 4, !dbg !39, !tbaa !25
  %add = add i32 %2, %call1, !dbg !39
  store i32 %add, ptr %sum, align 4, !dbg !39, !tbaa !25
  %3 = load i32, ptr %chair, align 4, !dbg !40, !tbaa !25
  %call2 = call i32 @reduced(i32 noundef %3), !dbg !41
  %4 = load i32, ptr %sum, align 4, !dbg !42, !tbaa !25
  %add3 = add i32 %4, %call2, !dbg !42
  store i32 %add3, ptr %sum, align 4, !dbg !42, !tbaa !25
  %5 = load i32, ptr %sum, align 4, !dbg !43, !tbaa !25
  %call4 = call i32 (ptr, ...) @printf(ptr noundef @.str, i32 noundef %5), !dbg !44
  call void @llvm.lifetime.end.p0(i64 4, ptr %sum) #3, !dbg !45
  call void @llvm.lifetime.end.p0(i64 4, ptr %chair) #3, !dbg !45
  call void @llvm.lifetime.end.p0(i64 4, ptr %lamp) #3, !dbg !45
  call void @llvm.lifetime.end.p0(i64 4, ptr %book) #3, !dbg !45
  ret i32 0, !dbg !46
}

; Function Attrs: nocallback nofree nosync nounwind willreturn memory(argmem: readwrite)
declare void @llvm.lifetime.start.p0(i64 immarg, ptr nocapture) #1

; Function Attrs: nounwind uwtable
define internal i32 @reduced(i32 noundef %price) #0 !dbg !47 {
entry:
  %retval = alloca i32, align 4
  %price.addr = alloca i32, align 4
  store i32 %price, ptr %price.addr, align 4, !tbaa !25
    #dbg_declare(ptr %price.addr, !51, !DIExpression(), !52)
  %0 = load i32, ptr %price.addr, align 4, !dbg !53, !tbaa !25
  %cmp = icmp sgt i32 %0, 100, !dbg !55
  br i1 %cmp, label %if.then, label %if.end, !dbg !56

if.then:                                          ; preds = %entry
  %1 = load i32, ptr %price.addr, align 4, !dbg !57, !tbaa !25
  %sub = sub i32 %1, 10, !dbg !58
  store i32 %sub, ptr %retval, align 4, !dbg !59
  br label %return, !dbg !59

if.end:                                           ; preds = %entry
  %2 = load i32, ptr %price.addr, align 4, !dbg !60, !tbaa !25
  store i32 %2, ptr %retval, align 4, !dbg !61
  br label %return, !dbg !61

return:                                           ; preds = %if.end, %if.then
  %3 = load i32, ptr %retval, align 4, !dbg !62
  ret i32 %3, !dbg !62
}

declare !dbg !63 dso_local i32 @printf(ptr noundef, ...) #2

; Function Attrs: nocallback nofree nosync nounwind willreturn memory(argmem: readwrite)
declare void @llvm.lifetime.end.p0(i64 immarg, ptr nocapture) #1

attributes #0 = { nounwind uwtable "min-legal-vector-width"="0" "no-trapping-math"="true" "stack-protector-buffer-size"="8" "target-cpu"="x86-64" "target-features"="+cmov,+cx8,+fxsr,+mmx,+sse,+sse2,+x87" "tune-cpu"="generic" }
attributes #1 = { nocallback nofree nosync nounwind willreturn memory(argmem: readwrite) }
attributes #2 = { "no-trapping-math"="true" "stack-protector-buffer-size"="8" "target-cpu"="x86-64" "target-features"="+cmov,+cx8,+fxsr,+mmx,+sse,+sse2,+x87" "tune-cpu"="generic" }
attributes #3 = { nounwind }

!llvm.dbg.cu = !{!7}
!llvm.module.flags = !{!9, !10, !11, !12}
!llvm.ident = !{!13}

!0 = !DIGlobalVariableExpression(var: !1, expr: !DIExpression())
!1 = distinct !DIGlobalVariable(scope: null, file: !2, line: 17, type: !3, isLocal: true, isDefinition: true)
!2 = !DIFile(filename: "prices.c", directory: ".", checksumkind: CSK_MD5, checksum: "8795bc3f480ff79fb35119cd9a88abb3")
!3 = !DICompositeType(tag: DW_TAG_array_type, baseType: !4, size: 32, elements: !5)
!4 = !DIBasicType(name: "char", size: 8, encoding: DW_ATE_signed_char)
!5 = !{!6}
!6 = !DISubrange(count: 4)
!7 = distinct !DICompileUnit(language: DW_LANG_C11, file: !2, producer: "Debian clang version 19.1.7 (3~deb12u1)", isOptimized: true, runtimeVersion: 0, emissionKind: FullDebug, globals: !8, splitDebugInlining: false, nameTableKind: None)
!8 = !{!0}
!9 = !{i32 7, !"Dwarf Version", i32 5}
!10 = !{i32 2, !"Debug Info Version", i32 3}
!11 = !{i32 1, !"wchar_size", i32 4}
!12 = !{i32 7, !"uwtable", i32 2}
!13 = !{!"Debian clang version 19.1.7 (3~deb12u1)"}
!14 = distinct !DISubprogram(name: "main", scope: !2, file: !2, line: 10, type: !15, scopeLine: 10, flags: DIFlagPrototyped | DIFlagAllCallsDescribed, spFlags: DISPFlagDefinition | DISPFlagOptimized, unit: !7, retainedNodes: !18)
!15 = !DISubroutineType(types: !16)
!16 = !{!17}
!17 = !DIBasicType(name: "int", size: 32, encoding: DW_ATE_signed)
!18 = !{!19, !20, !21, !22}
!19 = !DILocalVariable(name: "book", scope: !14, file: !2, line: 11, type: !17)
!20 = !DILocalVariable(name: "lamp", scope: !14, file: !2, line: 12, type: !17)
!21 = !DILocalVariable(name: "chair", scope: !14, file: !2, line: 13, type: !17)
!22 = !DILocalVariable(name: "sum", scope: !14, file: !2, line: 14, type: !17)
!23 = !DILocation(line: 11, column: 3, scope: !14)
!24 = !DILocation(line: 11, column: 7, scope: !14)
!25 = !{!26, !26, i64 0}
!26 = !{!"int", !27, i64 0}
!27 = !{!"omnipotent char", !28, i64 0}
!28 = !{!"Simple C/C++ TBAA"}
!29 = !DILocation(line: 12, column: 3, scope: !14)
!30 = !DILocation(line: 12, column: 7, scope: !14)
!31 = !DILocation(line: 13, column: 3, scope: !14)
!32 = !DILocation(line: 13, column: 7, scope: !14)
!33 = !DILocation(line: 14, column: 3, scope: !14)
!34 = !DILocation(line: 14, column: 7, scope: !14)
!35 = !DILocation(line: 14, column: 21, scope: !14)
!36 = !DILocation(line: 14, column: 13, scope: !14)
!37 = !DILocation(line: 15, column: 18, scope: !14)
!38 = !DILocation(line: 15, column: 10, scope: !14)
!39 = !DILocation(line: 15, column: 7, scope: !14)
!40 = !DILocation(line: 16, column: 18, scope: !14)
!41 = !DILocation(line: 16, column: 10, scope: !14)
!42 = !DILocation(line: 16, column: 7, scope: !14)
!43 = !DILocation(line: 17, column: 18, scope: !14)
!44 = !DILocation(line: 17, column: 3, scope: !14)
!45 = !DILocation(line: 19, column: 1, scope: !14)
!46 = !DILocation(line: 18, column: 3, scope: !14)
!47 = distinct !DISubprogram(name: "reduced", scope: !2, file: !2, line: 4, type: !48, scopeLine: 4, flags: DIFlagPrototyped | DIFlagAllCallsDescribed, spFlags: DISPFlagLocalToUnit | DISPFlagDefinition | DISPFlagOptimized, unit: !7, retainedNodes: !50)
!48 = !DISubroutineType(types: !49)
!49 = !{!17, !17}
!50 = !{!51}
!51 = !DILocalVariable(name: "price", arg: 1, scope: !47, file: !2, line: 4, type: !17)
!52 = !DILocation(line: 4, column: 24, scope: !47)
!53 = !DILocation(line: 5, column: 7, scope: !54)
!54 = distinct !DILexicalBlock(scope: !47, file: !2, line: 5, column: 7)
!55 = !DILocation(line: 5, column: 13, scope: !54)
!56 = !DILocation(line: 5, column: 7, scope: !47)
!57 = !DILocation(line: 6, column: 12, scope: !54)
!58 = !DILocation(line: 6, column: 18, scope: !54)
!59 = !DILocation(line: 6, column: 5, scope: !54)
!60 = !DILocation(line: 7, column: 10, scope: !47)
!61 = !DILocation(line: 7, column: 3, scope: !47)
!62 = !DILocation(line: 8, column: 1, scope: !47)
!63 = !DISubprogram(name: "printf", scope: !64, file: !64, line: 356, type: !65, flags: DIFlagPrototyped, spFlags: DISPFlagOptimized)
!64 = !DIFile(filename: "/usr/include/stdio.h", directory: "", checksumkind: CSK_MD5, checksum: "b5a90985555f47bfb88eff5a8f0f5b72")
!65 = !DISubroutineType(types: !66)
!66 = !{!17, !67, null}
!67 = !DIDerivedType(tag: DW_TAG_restrict_type, baseType: !68)
!68 = !DIDerivedType(tag: DW_TAG_pointer_type, baseType: !69, size: 64)
!69 = !DIDerivedType(tag: DW_TAG_const_type, baseType: !4)
